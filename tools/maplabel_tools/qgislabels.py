"""How QGIS draws a layer of labels: each text in its box, at its scales, and nothing is placed by
QGIS itself.
"""

from qgis.core import (
    QgsField,
    QgsFields,
    QgsLabelObstacleSettings,
    QgsPalLayerSettings,
    QgsProperty,
    QgsTextFormat,
    QgsUnitTypes,
    QgsVectorLayer,
    QgsVectorLayerSimpleLabeling,
    QgsNullSymbolRenderer,
)
from qgis.PyQt.QtCore import QTextBoundaryFinder, QVariant
from qgis.PyQt.QtGui import QColor, QFont, QRawFont

from maplabel_kit.faults import Fault

# How far the letters of a text reach below the line that they stand on, in parts of its size.
BELOW = 0.22

FIELDS = (
    ("id", QVariant.String),
    ("part", QVariant.Int),
    ("text", QVariant.String),
    ("name", QVariant.String),
    ("size", QVariant.Int),
    ("left", QVariant.Int),
    ("bottom", QVariant.Int),
    ("right", QVariant.Int),
    ("top", QVariant.Int),
    ("least", QVariant.Double),
    ("greatest", QVariant.Double),
    ("blocker", QVariant.String),
    ("reason", QVariant.String),
)


class Family:
    """The widths of a font that Qt knows by its family, as those of a font file are told."""

    def __init__(self, family: str) -> None:
        font = QFont(family)
        font.setPixelSize(1000)
        self._raw = QRawFont.fromFont(font)
        if not self._raw.isValid() or self._raw.familyName().lower() != family.lower():
            raise Fault(f"there is no font {family}; the nearest is {self._raw.familyName()}")
        self.family, self.path = family, family
        self.units = round(self._raw.unitsPerEm())
        self._raw.setPixelSize(self.units)

    def __contains__(self, code: int) -> bool:
        return bool(self._raw.supportsCharacter(chr(code)))

    def advance(self, code: int) -> int:
        """The advance of a character that the font has, in its units."""
        return round(
            self._raw.advancesForGlyphIndexes(self._raw.glyphIndexesForString(chr(code)))[0].x()
        )


def fields() -> QgsFields:
    """The fields of a layer of labels."""
    made = QgsFields()
    for name, kind in FIELDS:
        made.append(QgsField(name, kind))
    return made


def clusters(text: str, count: int) -> list[str] | None:
    """The text cut into what a reader takes for characters, where these are so many; else none."""
    finder, cuts = QTextBoundaryFinder(QTextBoundaryFinder.Grapheme, text), [0]
    while finder.toNextBoundary() > 0:
        cuts.append(finder.position())
    units = text.encode("utf-16-le")
    parts = [units[2 * a : 2 * b].decode("utf-16-le") for a, b in zip(cuts, cuts[1:])]
    return parts if len(parts) == count else None


def labelling(family: str) -> QgsVectorLayerSimpleLabeling:
    """The labelling of a layer of labels in a font."""
    settings = QgsPalLayerSettings()
    settings.fieldName, settings.isExpression = "text", False
    settings.placement = QgsPalLayerSettings.OverPoint
    settings.quadOffset = QgsPalLayerSettings.QuadrantOver
    settings.offsetUnits = QgsUnitTypes.RenderPixels
    settings.displayAll = True
    obstacle = QgsLabelObstacleSettings()
    obstacle.setIsObstacle(False)
    settings.setObstacleSettings(obstacle)
    settings.setFormat(_format(family))
    told = settings.dataDefinedProperties()
    told.setProperty(QgsPalLayerSettings.Size, QgsProperty.fromExpression('"size"'))
    told.setProperty(
        QgsPalLayerSettings.OffsetXY,
        QgsProperty.fromExpression(
            'to_string(("left" + "right") / 2.0) || \',\' || to_string(-("bottom" + "top") / 2.0)'
        ),
    )
    told.setProperty(
        QgsPalLayerSettings.Show,
        QgsProperty.fromExpression('"least" <= @map_scale AND @map_scale < "greatest"'),
    )
    settings.setDataDefinedProperties(told)
    return QgsVectorLayerSimpleLabeling(settings)


def _format(family: str) -> QgsTextFormat:
    """Text of a font without kerning, whose size is told in pixels, so that it is as wide as its
    box.
    """
    font = QFont(family)
    font.setKerning(False)
    made = QgsTextFormat()
    made.setFont(font)
    made.setSize(12)
    made.setSizeUnit(QgsUnitTypes.RenderPixels)
    made.setColor(QColor("#222222"))
    return made


def write_style(path: str, family: str) -> None:
    """Writes the QML style of a layer of labels: their texts alone, without marks at the
    anchors.
    """
    layer = QgsVectorLayer("Point?crs=EPSG:4326", "labels", "memory")
    layer.dataProvider().addAttributes(list(fields()))
    layer.updateFields()
    layer.setRenderer(QgsNullSymbolRenderer())
    layer.setLabeling(labelling(family))
    layer.setLabelsEnabled(True)
    said, done = layer.saveNamedStyle(path)
    if not done:
        raise Fault(f"the style {path} cannot be written: {said}")
