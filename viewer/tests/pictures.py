"""Pictures compared by a tolerance that small differences of drawing pass, and a shifted or blank picture fails."""
from PIL import Image, ImageChops, ImageStat

SMALLER = 2
MEAN = 1.5
STRONG = 20
PART = 0.006


def difference(one: Image.Image, two: Image.Image) -> tuple[float, float]:
    """The mean difference of a channel, and the part of the pixels that differ strongly."""
    if one.size != two.size:
        return 255.0, 1.0
    apart = ImageChops.difference(one.convert("RGB"), two.convert("RGB"))
    mean = sum(ImageStat.Stat(apart).mean) / 3
    red, green, blue = apart.split()
    most = ImageChops.lighter(ImageChops.lighter(red, green), blue)
    strong = sum(most.histogram()[STRONG:])
    return mean, strong / (most.width * most.height)


def alike(one: Image.Image, two: Image.Image) -> bool:
    """Whether two pictures show the same."""
    mean, part = difference(one, two)
    return mean <= MEAN and part <= PART


def blank(picture: Image.Image) -> Image.Image:
    """A picture of the same size with the colour of the first pixel alone."""
    rgb = picture.convert("RGB")
    return Image.new("RGB", rgb.size, rgb.getpixel((0, 0)))


def shifted(picture: Image.Image, pixels: int) -> Image.Image:
    """The picture moved to the right."""
    return ImageChops.offset(picture.convert("RGB"), pixels, 0)
