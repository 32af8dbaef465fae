"""What a page shows, by its pixels: colours, patches, and the part of the window that they are in."""
# What a page draws in light and in shade: triangles at tetrahedra, loose faces, and the colour behind them.
BLUE, ORANGE, BACK = (0.32, 0.60, 0.84), (0.90, 0.62, 0.0), (0.957, 0.965, 0.973)
# What is left of linear red, green and blue for eyes without the cones for long waves, and without those for middle
# ones.
WITHOUT_CONES = {'long': ((0.11238, 0.88762, 0), (0.11238, 0.88762, 0), (0.00401, -0.00401, 1)),
                 'middle': ((0.29275, 0.70725, 0), (0.29275, 0.70725, 0), (-0.02234, 0.02234, 1))}
LINK = '#a={}&v=0,0,1,0,0&s=on'  # at an alpha, seen along the first axis, without points and edges


def pixels_of(page, name):
    """What the page shows above its panel, rows of pixels of red, green and blue from 0 to 1."""
    from matplotlib import image
    top = int(page.value("document.getElementById('panel').getBoundingClientRect().top"))
    return image.imread(page.picture(name))[:top, :, :3]


def is_of(pixels, colour):
    """Which pixels have a colour, in light and in shade: they have its direction."""
    import numpy as np
    lengths = np.linalg.norm(pixels, axis=2)
    along = pixels @ np.array(colour) / np.linalg.norm(colour)
    return (along > 0.985 * lengths) & (lengths > 0.2) & (np.ptp(pixels, axis=2) > 0.12)


def scene(page, name):
    """The pixels below the words at the top, without the scale and the axes."""
    page.value("document.getElementById('measure').hidden = true")
    pixels = pixels_of(page, name)[120:]
    page.value("document.getElementById('measure').hidden = false")
    return pixels


def patches(is_there):
    """How many pixels each patch has of those that are there, and whether it reaches the rim: pairs."""
    import numpy as np
    from scipy import ndimage
    names, count = ndimage.label(is_there)
    rim = set(np.concatenate([names[0], names[-1], names[:, 0], names[:, -1]]).tolist())
    return [(size, at in rim) for at, size in enumerate(np.bincount(names.ravel(), minlength=count + 1)) if at]


def is_bare(pixels):
    """Which pixels have the colour behind all."""
    import numpy as np
    return abs(pixels - np.array(BACK)).max(axis=2) < 0.02
