// house_boxes FILE: the boxes (mm) of the elements of an IFC2X3 file as assimp reads them, a line for each identifier.
// It made check/house_boxes.txt, with which the converter's boxes are compared: another reader's figures, not its own.
#include <assimp/Importer.hpp>
#include <assimp/postprocess.h>
#include <assimp/scene.h>

#include <algorithm>
#include <cstdio>
#include <map>
#include <string>

struct Box {
    double low[3] = {1e300, 1e300, 1e300};
    double high[3] = {-1e300, -1e300, -1e300};
};

static std::map<std::string, Box> boxes;

static void add(const aiScene *scene, const aiNode *node, const aiMatrix4x4 &placed, const std::string &guid) {
    for (unsigned k = 0; k < node->mNumMeshes; ++k) {
        const aiMesh *mesh = scene->mMeshes[node->mMeshes[k]];
        for (unsigned n = 0; n < mesh->mNumVertices; ++n) {
            const aiVector3D at = placed * mesh->mVertices[n];
            Box &box = boxes[guid];
            for (int axis = 0; axis < 3; ++axis) {
                box.low[axis] = std::min(box.low[axis], at[axis] * 1000.0);
                box.high[axis] = std::max(box.high[axis], at[axis] * 1000.0);
            }
        }
    }
}

// Nodes of elements are named class, name and identifier, with _ between; those below one without a name are its.
static void walk(const aiScene *scene, const aiNode *node, aiMatrix4x4 placed, std::string guid, bool root) {
    if (!root) placed = placed * node->mTransformation;
    const std::string name = node->mName.C_Str();
    if (name.compare(0, 3, "Ifc") == 0 && name.size() > 22) guid = name.substr(name.size() - 22);
    if (!guid.empty()) add(scene, node, placed, guid);
    for (unsigned k = 0; k < node->mNumChildren; ++k) walk(scene, node->mChildren[k], placed, guid, false);
}

int main(int count, char **words) {
    if (count != 2) return 2;
    Assimp::Importer importer;
    const aiScene *scene = importer.ReadFile(words[1], aiProcess_Triangulate);
    if (!scene) {
        std::fprintf(stderr, "%s\n", importer.GetErrorString());
        return 1;
    }
    // The root turns the building so that y is upwards, which is left out.
    walk(scene, scene->mRootNode, aiMatrix4x4(), "", true);
    for (const auto &[guid, box] : boxes) {
        std::printf("%s %.3f %.3f %.3f %.3f %.3f %.3f\n", guid.c_str(), box.low[0], box.low[1], box.low[2],
                    box.high[0], box.high[1], box.high[2]);
    }
    return 0;
}
