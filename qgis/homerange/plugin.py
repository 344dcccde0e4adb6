"""The plugin: it adds the provider to Processing, and takes it out again."""

from pathlib import Path

from qgis.core import QgsApplication, QgsProcessingProvider
from qgis.PyQt.QtGui import QIcon

from .algorithm import RangesAlgorithm


class HomeRangeProvider(QgsProcessingProvider):
    """The provider `homerange`."""

    def loadAlgorithms(self):
        self.addAlgorithm(RangesAlgorithm())

    def id(self):
        return "homerange"

    def name(self):
        return "homerange"

    def longName(self):
        return "homerange: home ranges by a proved program"

    def icon(self):
        return QIcon(str(Path(__file__).with_name("icon.svg")))


class HomeRangePlugin:
    """What QGIS keeps of the plugin."""

    def __init__(self):
        self.provider = None

    def initProcessing(self):
        """Adds the provider; qgis_process calls this alone."""
        self.provider = HomeRangeProvider()
        QgsApplication.processingRegistry().addProvider(self.provider)

    def initGui(self):
        """What QGIS with a window calls."""
        self.initProcessing()

    def unload(self):
        """Takes the provider out."""
        QgsApplication.processingRegistry().removeProvider(self.provider)
