"""A Processing script for QGIS: names of a layer, placed by maplabel, as a layer of labels with a
style.

Link it into the folder of scripts (Processing toolbox, scripts, "Open containing folder" tells it),
so that it finds the tools beside it; or copy it there, and tell the folder `tools` of the checkout
by the variable MAPLABEL_TOOLS.
"""

import json
import os
import sys
from typing import Any

from qgis.core import (
    QgsCoordinateReferenceSystem,
    QgsCoordinateTransform,
    QgsFeature,
    QgsGeometry,
    QgsPointXY,
    QgsProcessing,
    QgsProcessingAlgorithm,
    QgsProcessingException,
    QgsProcessingParameterFeatureSink,
    QgsProcessingParameterFeatureSource,
    QgsProcessingParameterField,
    QgsProcessingParameterFile,
    QgsProcessingParameterFileDestination,
    QgsProcessingParameterNumber,
    QgsProcessingParameterString,
    QgsFeatureSink,
    QgsWkbTypes,
)

SEVEN = 10**7
# What the methods of QGIS are given: its own values, without types.
Qgis = Any


def import_tools() -> None:
    """Makes the tools of the checkout importable: those beside this script, or those that a
    variable names.
    """
    beside = os.path.dirname(os.path.dirname(os.path.realpath(__file__)))
    for folder in (beside, os.environ.get("MAPLABEL_TOOLS", "")):
        if os.path.isdir(os.path.join(folder, "maplabel_tools")):
            if folder not in sys.path:
                sys.path.insert(0, folder)
            return
    raise QgsProcessingException(
        "The tools of maplabel are not found. Link this script into the folder of scripts, or "
        "tell the folder tools of the checkout by the variable MAPLABEL_TOOLS."
    )


class MaplabelLabels(QgsProcessingAlgorithm):
    """Labels of a layer by maplabel."""

    def name(self) -> str:
        return "maplabellabels"

    def displayName(self) -> str:
        return "Names by maplabel"

    def group(self) -> str:
        return "maplabel"

    def groupId(self) -> str:
        return "maplabel"

    def createInstance(self) -> "MaplabelLabels":
        return MaplabelLabels()

    def shortHelpString(self) -> str:
        return (
            "Places the names of a layer of points, lines or areas by maplabel: each name has one "
            "unbroken range of scales, and no two overlap. Classes are the values of a field, "
            "those with the greater median rank first. The result is a layer of labels, and a "
            "style for it, which draws each name in its box at its scales. Scales are exact in "
            "projects whose x is that of the equator, as EPSG:3857 and EPSG:32662; in EPSG:4326 "
            "names go too late."
        )

    def initAlgorithm(self, config: Qgis = None) -> None:
        field, layer = QgsProcessingParameterField, "INPUT"
        number = QgsProcessingParameterNumber
        for one in (
            QgsProcessingParameterFeatureSource(
                layer, "Layer", [QgsProcessing.TypeVectorAnyGeometry]
            ),
            field("NAME", "Name", parentLayerParameterName=layer),
            field("RANK", "Rank, the greatest first", None, layer, field.Numeric, optional=True),
            field("CLASS", "Class", None, layer, optional=True),
            QgsProcessingParameterString("FONT", "Font", "Liberation Sans"),
            QgsProcessingParameterString("SIZES", "Sizes in pixels, class by class", "17,14,12,11"),
            number("MARGIN", "Pixels about each name", number.Integer, 2, minValue=0, maxValue=64),
            number(
                "FIRST_ZOOM", "First zoom with names", number.Integer, 0, minValue=0, maxValue=20
            ),
            QgsProcessingParameterFile(
                "PROGRAM",
                "The program maplabel (else $MAPLABEL, else the checkout's)",
                optional=True,
                fileFilter="All files (*)",
            ),
            QgsProcessingParameterFeatureSink("OUTPUT", "Labels", QgsProcessing.TypeVectorPoint),
            QgsProcessingParameterFileDestination(
                "QML", "Style of the labels", "QGIS style (*.qml)"
            ),
            QgsProcessingParameterFileDestination(
                "MAP",
                "The map that was made for maplabel",
                "GeoJSON (*.geojson)",
                optional=True,
                createByDefault=False,
            ),
            QgsProcessingParameterFileDestination(
                "STYLE",
                "The style that was made for maplabel",
                "TOML (*.toml)",
                optional=True,
                createByDefault=False,
            ),
        ):
            self.addParameter(one)

    def processAlgorithm(self, parameters: Qgis, context: Qgis, feedback: Qgis) -> Qgis:
        import_tools()
        from maplabel_kit import faults

        try:
            return self.run_tools(parameters, context, feedback)
        except faults.Fault as fault:
            raise QgsProcessingException(str(fault)) from None

    def run_tools(self, parameters: Qgis, context: Qgis, feedback: Qgis) -> dict[str, str]:
        """The layer of labels and its style, written once all of it is known."""
        from maplabel_kit import faults, files, program
        from maplabel_tools import layers, qgislabels

        source = self.parameterAsSource(parameters, "INPUT", context)
        asked = program.find(self.parameterAsFile(parameters, "PROGRAM", context) or None)
        font = qgislabels.Family(self.parameterAsString(parameters, "FONT", context))
        layers.must_fit(source.featureCount())
        features, spots = self.features(source, parameters, context, feedback)
        feedback.pushInfo(f"{len(features)} features are given to {asked}")
        map_text = layers.collection(features)
        style_text, found = layers.placed(
            asked,
            map_text,
            self.wish(parameters, context),
            [font],
            lambda: not feedback.isCanceled(),
        )
        rows = self.rows(found, spots, feedback)
        if feedback.isCanceled():
            raise faults.Fault("ended before it was done; nothing was written")
        where = self.sink(rows, parameters, context)
        qml = self.parameterAsFileOutput(parameters, "QML", context)
        qgislabels.write_style(qml, font.family)
        for name, text in (("MAP", map_text), ("STYLE", style_text)):
            if parameters.get(name):
                files.write_whole({self.parameterAsFileOutput(parameters, name, context): text})
        if context.willLoadLayerOnCompletion(where):
            context.layerToLoadOnCompletionDetails(where).setPostProcessor(Styling.of(qml))
        return {"OUTPUT": where, "QML": qml}

    def sink(self, rows: list[Qgis], parameters: Qgis, context: Qgis) -> str:
        """Writes the layer of labels, and tells where it is."""
        from maplabel_kit.faults import Fault
        from maplabel_tools import qgislabels

        sink, where = self.parameterAsSink(
            parameters,
            "OUTPUT",
            context,
            qgislabels.fields(),
            QgsWkbTypes.Point,
            QgsCoordinateReferenceSystem("EPSG:4326"),
        )
        if sink is None:
            raise QgsProcessingException(self.invalidSinkError(parameters, "OUTPUT"))
        if not sink.addFeatures(rows, QgsFeatureSink.FastInsert):
            raise Fault("the labels cannot be written")
        return str(where)

    def wish(self, parameters: Qgis, context: Qgis) -> Qgis:
        """What the parameters ask of a style."""
        from maplabel_kit.faults import Fault
        from maplabel_tools import stylemaker

        sizes = self.parameterAsString(parameters, "SIZES", context).split(",")
        if not all(one.strip().isdecimal() and 1 <= int(one) <= 256 for one in sizes):
            raise Fault("sizes are whole numbers from 1 to 256 with commas between")
        has_class = bool(self.parameterAsString(parameters, "CLASS", context))
        zoom = self.parameterAsInt(parameters, "FIRST_ZOOM", context)
        return stylemaker.Wish(
            "name",
            "rank",
            "class" if has_class else None,
            [],
            [int(one) for one in sizes],
            {None: (zoom, None)},
            self.parameterAsInt(parameters, "MARGIN", context),
            0,
            "qgis",
            "the Processing script of tools/qgis",
        )

    def keys(self, source: Qgis, parameters: Qgis, context: Qgis) -> list[str]:
        """The fields of name, rank and class, which the layer must have."""
        from maplabel_kit.faults import Fault
        from maplabel_kit.told import near

        names = [one.name() for one in source.fields()]
        keys = [
            self.parameterAsString(parameters, one, context) for one in ("NAME", "RANK", "CLASS")
        ]
        for key in keys:
            if key and key not in names:
                told = ", ".join(names) or "none at all"
                raise Fault(
                    f'the layer has no field "{key}"{near(key, names)}. Its fields are: {told}'
                )
        return keys

    def features(
        self, source: Qgis, parameters: Qgis, context: Qgis, feedback: Qgis
    ) -> tuple[list[Qgis], dict[str, Qgis]]:
        """The features of the layer in degrees, and a point of each for those that get no label."""
        keys = self.keys(source, parameters, context)
        turned = QgsCoordinateTransform(
            source.sourceCrs(),
            QgsCoordinateReferenceSystem("EPSG:4326"),
            context.transformContext(),
        )
        made: list[Qgis] = []
        spots: dict[str, Qgis] = {}
        count = max(source.featureCount(), 1)
        for number, one in enumerate(source.getFeatures()):
            if feedback.isCanceled():
                break
            shape = QgsGeometry(one.geometry())
            shape.transform(turned)
            spots[str(one.id())] = shape.pointOnSurface()
            told = {
                name: value_of(one[key])
                for name, key in zip(("name", "rank", "class"), keys)
                if key
            }
            made.append(
                (str(one.id()), json.loads(shape.asJson(7)) if not shape.isEmpty() else None, told)
            )
            feedback.setProgress(40 * number / count)
        return made, spots

    def rows(self, found: list[Qgis], spots: dict[str, Qgis], feedback: Qgis) -> list[Qgis]:
        """The features of the layer of labels."""
        made: list[Qgis] = []
        for number, one in enumerate(found):
            made += rows_of(one, spots[one.id])
            feedback.setProgress(60 + 40 * number / len(found))
        return made


def value_of(value: Qgis) -> Qgis:
    """A value of a field as JSON has it."""
    if value is None or str(value) == "NULL":
        return None
    return value if isinstance(value, (int, float, str, bool)) else str(value)


def rows_of(one: Qgis, spot: Qgis) -> list[Qgis]:
    """The features of one label: one for each box, or one without a box where there is no label."""
    from maplabel_tools import layers, qgislabels

    if one.label is None:
        return [row(spot, [one.id, 0, None, one.text, one.size] + [None] * 7 + [one.reason])]
    label = one.label
    texts = [one.text] if len(label.boxes) == 1 else qgislabels.clusters(one.text, len(label.boxes))
    boxes = label.boxes if texts else [hull(label.boxes)]
    anchor = QgsGeometry.fromPointXY(QgsPointXY(label.x / SEVEN, label.y / SEVEN))
    ends = [layers.denominator(label.least), layers.denominator(label.until), label.blocker, None]
    return [
        row(anchor, [one.id, part, text, one.text, one.size, *box] + ends)
        for part, (text, box) in enumerate(zip(texts or [one.text], boxes))
    ]


def hull(boxes: Qgis) -> tuple[int, int, int, int]:
    """The box about some boxes."""
    left, bottom, right, top = zip(*boxes)
    return min(left), min(bottom), max(right), max(top)


def row(geometry: Qgis, values: list[Qgis]) -> Qgis:
    """A feature of the layer of labels."""
    made = QgsFeature()
    made.setGeometry(geometry)
    made.setAttributes(values)
    return made


try:
    from qgis.core import QgsProcessingLayerPostProcessorInterface
except ImportError:
    QgsProcessingLayerPostProcessorInterface = object


class Styling(QgsProcessingLayerPostProcessorInterface):
    """Gives the layer of labels its style once it is loaded."""

    kept: Qgis = None

    @staticmethod
    def of(path: str) -> "Styling":
        """The one for a style file. It is kept, since QGIS does not own it."""
        Styling.kept = Styling()
        Styling.kept.path = path
        return Styling.kept

    def postProcessLayer(self, layer: Qgis, context: Qgis, feedback: Qgis) -> None:
        layer.loadNamedStyle(self.path)
        layer.triggerRepaint()
