"""The plugin of homerange for QGIS: Processing gets a provider with one algorithm, minimum convex polygon ranges."""


def classFactory(iface):  # pylint: disable=invalid-name
    """What QGIS calls when it loads the plugin; iface is its window, which the plugin does not need."""
    from .plugin import HomeRangePlugin

    return HomeRangePlugin()
