// mesh2grid IN OUT.ifc [--unit MM] [--up y|z] [--class KEYWORD] [--storey NAME]
//
// Meshes that assimp reads (DXF, OBJ, STL, glTF) become a file that bim_server takes: one element for each node that
// has meshes, its corners rounded to tenths of a millimetre. Identifiers hang on the node's path alone, so that a
// second run gives the same ones.
#include <assimp/Importer.hpp>
#include <assimp/postprocess.h>
#include <assimp/scene.h>

#include <array>
#include <cctype>
#include <cmath>
#include <cstdint>
#include <cstdio>
#include <cstdlib>
#include <fstream>
#include <map>
#include <set>
#include <sstream>
#include <string>
#include <vector>

namespace {

constexpr int per_millimetre = 10;  // grid numbers, as the server has them
constexpr double farthest = 800000.0 * per_millimetre;  // grid numbers on either side of zero, as the server takes them
constexpr int most_depth = 500;

const char usage[] =
    "usage: mesh2grid IN OUT.ifc [--unit MM] [--up y|z] [--class KEYWORD] [--storey NAME]\n"
    "\n"
    "Meshes of DXF, OBJ, STL or glTF become a file that bim_server takes, one element for each node with meshes.\n"
    "\n"
    "  --unit MM         millimetres of the file's unit: 1000 without it, 25.4 for inches\n"
    "  --up y|z          the axis that points upwards: y without it, as in glTF and most OBJ; z for STL. DXF has z\n"
    "                    upwards, but assimp turns it, so that y is right for it\n"
    "  --class KEYWORD   the class of all elements: IFCBUILDINGELEMENTPROXY without it\n"
    "  --storey NAME     the storey of all elements: none without it\n"
    "\n"
    "Ends with 0 where all was converted, 1 where something is left out, 2 for wrong words, 3 where the file can't be\n"
    "read or has no mesh, 4 where the output can't be written.\n";

const char *const classes[] = {
    "BEAM", "BEAMSTANDARDCASE", "BUILDINGELEMENTPROXY", "CHIMNEY", "COLUMN", "COLUMNSTANDARDCASE", "COVERING",
    "CURTAINWALL", "DOOR", "DOORSTANDARDCASE", "ELEMENTASSEMBLY", "FOOTING", "FURNISHINGELEMENT", "FURNITURE",
    "MEMBER", "MEMBERSTANDARDCASE", "PILE", "PLATE", "PLATESTANDARDCASE", "RAILING", "RAMP", "RAMPFLIGHT", "ROOF",
    "SHADINGDEVICE", "SLAB", "SLABSTANDARDCASE", "STAIR", "STAIRFLIGHT", "TRANSPORTELEMENT", "WALL",
    "WALLSTANDARDCASE", "WINDOW", "WINDOWSTANDARDCASE", "DISTRIBUTIONELEMENT", "DISTRIBUTIONFLOWELEMENT",
    "FLOWSEGMENT", "FLOWFITTING", "FLOWTERMINAL", "FLOWCONTROLLER", "PIPESEGMENT", "PIPEFITTING", "DUCTSEGMENT",
    "DUCTFITTING", "CABLESEGMENT", "CABLECARRIERSEGMENT", "VALVE", "PUMP", "FAN", "BOILER", "TANK", "AIRTERMINAL",
    "DAMPER", "LIGHTFIXTURE", "OUTLET", "SANITARYTERMINAL"};

struct Options {
    std::string input;
    std::string output;
    double unit = 1000.0;
    bool y_is_up = true;
    std::string keyword = "IFCBUILDINGELEMENTPROXY";
    std::string storey;
};

using GridPoint = std::array<int, 3>;

struct Element {
    std::vector<GridPoint> points;
    std::map<GridPoint, int> places;
    std::vector<std::array<int, 3>> triangles;
    bool too_far = false;
};

// A globally unique identifier that hangs on some words alone: 128 bits of FNV-1a, by 6 bits a letter.
std::string guid_of(const std::string &words) {
    const char alphabet[] = "0123456789ABCDEFGHIJKLMNOPQRSTUVWXYZabcdefghijklmnopqrstuvwxyz_$";
    using Wide = unsigned __int128;
    Wide hash = (static_cast<Wide>(0x6c62272e07bb0142u) << 64) | 0x62b821756295c58du;
    const Wide prime = (static_cast<Wide>(0x0000000001000000u) << 64) | 0x000000000000013Bu;
    for (const char letter : words) {
        hash ^= static_cast<unsigned char>(letter);
        hash *= prime;
    }
    std::string guid(22, '0');
    for (int place = 21; place >= 0; --place) {
        guid[place] = alphabet[static_cast<int>(hash & 63)];
        hash >>= 6;
    }
    return guid;
}

// A text as Part 21 spells it: apostrophes and backslashes twice, control characters left out.
std::string text_of(const std::string &words) {
    std::string text = "'";
    for (const char letter : words) {
        if (letter == '\'' || letter == '\\') text += letter;
        if (static_cast<unsigned char>(letter) >= 32) text += letter;
    }
    return text + "'";
}

// A grid number in millimetres, as Part 21 spells a real: without a digit behind the point where it is whole.
std::string length_of(int number) {
    const int size = std::abs(number);
    std::string text = number < 0 ? "-" : "";
    text += std::to_string(size / per_millimetre) + ".";
    if (size % per_millimetre != 0) text += std::to_string(size % per_millimetre);
    return text;
}

class Writer {
public:
    explicit Writer(const Options &options) : options_(options) {}

    void walk(const aiScene &scene, const aiNode &node, aiMatrix4x4 placed, const std::string &path, int depth) {
        if (depth > most_depth) {
            ++left_out_;
            return;
        }
        placed = placed * node.mTransformation;
        const std::string own = path + "/" + node.mName.C_Str();
        if (node.mNumMeshes > 0) take(scene, node, placed, own);
        for (unsigned k = 0; k < node.mNumChildren; ++k) walk(scene, *node.mChildren[k], placed, own, depth + 1);
    }

    bool write() const {
        std::ofstream out(options_.output, std::ios::binary);
        out << "ISO-10303-21;\nHEADER;\nFILE_DESCRIPTION((''),'2;1');\n"
               "FILE_NAME('','1970-01-01T00:00:00',(''),(''),'mesh2grid','','');\nFILE_SCHEMA(('IFC4'));\nENDSEC;\n"
               "DATA;\n#1=IFCPROJECT('0000000000000000000001',$,$,$,$,$,$,(),#2);\n#2=IFCUNITASSIGNMENT((#3));\n"
               "#3=IFCSIUNIT(*,.LENGTHUNIT.,.MILLI.,.METRE.);\n";
        out << body_.str();
        if (!options_.storey.empty()) write_storey(out);
        out << "ENDSEC;\nEND-ISO-10303-21;\n";
        out.close();
        return !out.fail();
    }

    std::size_t elements() const { return elements_.size(); }
    std::size_t triangles() const { return triangles_; }
    std::size_t left_out() const { return left_out_; }

private:
    void take(const aiScene &scene, const aiNode &node, const aiMatrix4x4 &placed, const std::string &path) {
        Element element;
        for (unsigned k = 0; k < node.mNumMeshes; ++k) {
            const aiMesh &mesh = *scene.mMeshes[node.mMeshes[k]];
            for (unsigned n = 0; n < mesh.mNumFaces; ++n) add_face(mesh, mesh.mFaces[n], placed, element);
        }
        if (element.too_far) {
            std::fprintf(stderr, "mesh2grid: %s lies beyond 800 m or has no numbers: left out\n", path.c_str());
            ++left_out_;
        } else if (!element.triangles.empty()) {
            add_element(element, node.mName.C_Str(), path);
        }
    }

    void add_face(const aiMesh &mesh, const aiFace &face, const aiMatrix4x4 &placed, Element &element) const {
        if (face.mNumIndices != 3) return;
        std::array<int, 3> triangle{};
        for (int corner = 0; corner < 3; ++corner) {
            const aiVector3D at = placed * mesh.mVertices[face.mIndices[corner]];
            triangle[corner] = place(at, element);
        }
        if (triangle[0] == triangle[1] || triangle[1] == triangle[2] || triangle[0] == triangle[2]) return;
        element.triangles.push_back(triangle);
    }

    int place(const aiVector3D &at, Element &element) const {
        const double lengths[3] = {at.x * options_.unit, (options_.y_is_up ? -at.z : at.y) * options_.unit,
                                   (options_.y_is_up ? at.y : at.z) * options_.unit};
        GridPoint point{};
        for (int axis = 0; axis < 3; ++axis) {
            const double rounded = std::floor(lengths[axis] * per_millimetre + 0.5);
            if (!std::isfinite(rounded) || std::abs(rounded) > farthest) {
                element.too_far = true;
            } else {
                point[axis] = static_cast<int>(rounded);
            }
        }
        const auto [found, fresh] = element.places.emplace(point, static_cast<int>(element.points.size()));
        if (fresh) element.points.push_back(point);
        return found->second;
    }

    void add_element(const Element &element, const std::string &name, const std::string &path) {
        std::string guid = guid_of(path);
        for (int again = 2; !guids_.insert(guid).second; ++again) guid = guid_of(path + "#" + std::to_string(again));
        const long first = 100 + 5 * static_cast<long>(elements_.size());
        body_ << "#" << first << "=IFCCARTESIANPOINTLIST3D(";
        write_rows(element.points, length_of);
        body_ << ");\n#" << first + 1 << "=IFCTRIANGULATEDFACESET(#" << first << ",$,$,";
        write_rows(element.triangles, [](int place) { return std::to_string(place + 1); });
        body_ << ",$);\n#" << first + 2 << "=IFCSHAPEREPRESENTATION($,'Body','Tessellation',(#" << first + 1
              << "));\n#" << first + 3 << "=IFCPRODUCTDEFINITIONSHAPE($,$,(#" << first + 2 << "));\n#" << first + 4
              << "=" << options_.keyword << "('" << guid << "',$," << text_of(name) << ",$,$,$,#" << first + 3
              << ",$);\n";
        elements_.push_back(first + 4);
        triangles_ += element.triangles.size();
    }

    template <typename Spell>
    void write_rows(const std::vector<std::array<int, 3>> &rows, Spell spell) {
        body_ << "(";
        for (std::size_t k = 0; k < rows.size(); ++k) {
            body_ << (k > 0 ? ",(" : "(") << spell(rows[k][0]) << "," << spell(rows[k][1]) << "," << spell(rows[k][2])
                  << ")";
        }
        body_ << ")";
    }

    void write_storey(std::ostream &out) const {
        out << "#10=IFCBUILDINGSTOREY('" << guid_of("storey " + options_.storey) << "',$," << text_of(options_.storey)
            << ",$,$,$,$,$,.ELEMENT.,$);\n#11=IFCRELCONTAINEDINSPATIALSTRUCTURE('" << guid_of("in " + options_.storey)
            << "',$,$,$,(";
        for (std::size_t k = 0; k < elements_.size(); ++k) out << (k > 0 ? ",#" : "#") << elements_[k];
        out << "),#10);\n";
    }

    const Options &options_;
    std::ostringstream body_;
    std::vector<long> elements_;
    std::set<std::string> guids_;
    std::size_t triangles_ = 0;
    std::size_t left_out_ = 0;
};

bool is_class(const std::string &keyword) {
    for (const char *name : classes) {
        if (keyword == std::string("IFC") + name) return true;
    }
    return false;
}

bool set_option(const std::string &word, const std::string &value, Options &options) {
    if (word == "--unit") {
        char *end = nullptr;
        options.unit = std::strtod(value.c_str(), &end);
        return *end == '\0' && options.unit > 0 && options.unit <= 1e6;
    }
    if (word == "--up") {
        options.y_is_up = value == "y";
        return value == "y" || value == "z";
    }
    if (word == "--class") {
        options.keyword = value.compare(0, 3, "IFC") == 0 ? value : "IFC" + value;
        return is_class(options.keyword);
    }
    if (word == "--storey") {
        options.storey = value;
        return !value.empty();
    }
    return false;
}

// assimp reads IFC too, but loses openings, classes and units.
bool ends_with_ifc(const std::string &path) {
    if (path.size() < 4) return false;
    std::string end = path.substr(path.size() - 4);
    for (char &letter : end) letter = static_cast<char>(std::tolower(static_cast<unsigned char>(letter)));
    return end == ".ifc";
}

bool parse(int count, char **words, Options &options) {
    std::vector<std::string> paths;
    for (int k = 1; k < count; ++k) {
        const std::string word = words[k];
        if (word.compare(0, 2, "--") != 0) {
            paths.push_back(word);
        } else if (k + 1 >= count || !set_option(word, words[k + 1], options)) {
            std::fprintf(stderr, "mesh2grid: %s isn't an option, or doesn't take its value; --help says more\n",
                         word.c_str());
            return false;
        } else {
            ++k;
        }
    }
    if (paths.size() != 2) {
        std::fprintf(stderr, "mesh2grid: two files are wanted, IN and OUT.ifc; --help says more\n");
        return false;
    }
    options.input = paths[0];
    options.output = paths[1];
    if (ends_with_ifc(options.input)) {
        std::fprintf(stderr, "mesh2grid: %s is an IFC file: use ifc2grid\n", options.input.c_str());
        return false;
    }
    return true;
}

}  // namespace

int main(int count, char **words) {
    if (count == 2 && std::string(words[1]) == "--help") {
        std::fputs(usage, stdout);
        return 0;
    }
    Options options;
    if (!parse(count, words, options)) return 2;
    Assimp::Importer importer;
    importer.SetPropertyInteger(AI_CONFIG_PP_SBP_REMOVE, aiPrimitiveType_POINT | aiPrimitiveType_LINE);
    const aiScene *scene = importer.ReadFile(options.input, aiProcess_Triangulate | aiProcess_SortByPType);
    if (scene == nullptr || scene->mRootNode == nullptr) {
        std::fprintf(stderr, "mesh2grid: %s can't be read: %s\n", options.input.c_str(), importer.GetErrorString());
        return 3;
    }
    Writer writer(options);
    writer.walk(*scene, *scene->mRootNode, aiMatrix4x4(), "", 0);
    if (writer.elements() == 0) {
        std::fprintf(stderr, "mesh2grid: %s has no mesh within 800 m\n", options.input.c_str());
        return 3;
    }
    if (!writer.write()) {
        std::fprintf(stderr, "mesh2grid: %s can't be written\n", options.output.c_str());
        return 4;
    }
    std::printf("elements %zu triangles %zu left out %zu\n", writer.elements(), writer.triangles(), writer.left_out());
    return writer.left_out() > 0 ? 1 : 0;
}
