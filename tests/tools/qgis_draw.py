"""Draws a layer of labels with its style in QGIS at some views, and prints where it has drawn which
text.

  qgis_draw.py LAYER QML CRS PICTURE_PREFIX CX,CY,W,H,SCALE ..

The views are those of `maplabel view`. Printed is a JSON list with, for each view, a list of
labels: id, text, and the label's rectangle in pixels from the left and lower edge of the picture.
"""

import json
import sys
from typing import Any

from qgis.core import (
    QgsApplication,
    QgsCoordinateReferenceSystem,
    QgsCoordinateTransform,
    QgsExpressionContext,
    QgsExpressionContextUtils,
    QgsMapRendererParallelJob,
    QgsMapSettings,
    QgsPointXY,
    QgsProject,
    QgsRectangle,
    QgsVectorLayer,
)
from qgis.PyQt.QtCore import QSize
from qgis.PyQt.QtGui import QColor


def settings_of(layer: Any, crs: Any, view: list[int]) -> tuple[Any, float]:
    """The settings of a picture that shows a view."""
    x, y, width, height, scale = view
    turned = QgsCoordinateTransform(
        QgsCoordinateReferenceSystem("EPSG:4326"), crs, QgsProject.instance()
    )
    degree = turned.transform(QgsPointXY(1, 0)).x()
    middle, pixel = turned.transform(QgsPointXY(x / 1e7, y / 1e7)), scale * 1e-7 * degree
    made = QgsMapSettings()
    made.setLayers([layer])
    made.setDestinationCrs(crs)
    made.setOutputDpi(96)
    made.setOutputSize(QSize(width, height))
    made.setExtent(
        QgsRectangle(
            middle.x() - width / 2 * pixel,
            middle.y() - height / 2 * pixel,
            middle.x() + width / 2 * pixel,
            middle.y() + height / 2 * pixel,
        )
    )
    # Anchors that lie beyond the picture may have names that reach into it.
    made.setExtentBuffer(512 * pixel)
    made.setBackgroundColor(QColor("white"))
    context = QgsExpressionContext()
    context.appendScope(QgsExpressionContextUtils.globalScope())
    context.appendScope(QgsExpressionContextUtils.mapSettingsScope(made))
    made.setExpressionContext(context)
    return made, pixel


def drawn(layer: Any, crs: Any, view: list[int], picture: str) -> list[dict[str, Any]]:
    """The labels of a picture."""
    settings, pixel = settings_of(layer, crs, view)
    job = QgsMapRendererParallelJob(settings)
    job.start()
    job.waitForFinished()
    job.renderedImage().save(picture)
    results, extent = job.takeLabelingResults(), settings.visibleExtent()
    wide = extent.buffered(2000 * pixel)
    found = []
    for one in results.labelsWithinRect(wide):
        box = one.labelRect
        found.append(
            {
                "id": layer.getFeature(one.featureId)["id"],
                "text": one.labelText,
                "unplaced": one.isUnplaced,
                "rect": [
                    (box.xMinimum() - extent.xMinimum()) / pixel,
                    (box.yMinimum() - extent.yMinimum()) / pixel,
                    (box.xMaximum() - extent.xMinimum()) / pixel,
                    (box.yMaximum() - extent.yMinimum()) / pixel,
                ],
            }
        )
    return found


def main() -> None:
    """Draws the views."""
    source, qml, crs_name, prefix, *views = sys.argv[1:]
    app = QgsApplication([], False)
    app.initQgis()
    layer = QgsVectorLayer(source, "labels", "ogr")
    _, done = layer.loadNamedStyle(qml)
    assert layer.isValid() and done
    crs = QgsCoordinateReferenceSystem(crs_name)
    print(
        json.dumps(
            [
                drawn(layer, crs, [int(part) for part in view.split(",")], f"{prefix}{number}.png")
                for number, view in enumerate(views)
            ]
        )
    )
    del layer
    app.exitQgis()


if __name__ == "__main__":
    main()
