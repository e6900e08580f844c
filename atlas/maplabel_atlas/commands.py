"""What each command does."""

import argparse
import sys
from fractions import Fraction
from pathlib import Path

from maplabel_kit import program
from maplabel_kit.geojson import write as json_text

from maplabel_atlas import audit, editing, making, publishing
from maplabel_atlas.cut import Sizes
from maplabel_atlas.ends import Ends
from maplabel_atlas.engine import Engine, engine_at
from maplabel_atlas.exports import Tiles
from maplabel_atlas.faults import Fault
from maplabel_atlas.following import Follower, Published
from maplabel_atlas.layer import Options, source_of
from maplabel_atlas.memo import Memo
from maplabel_atlas.postgis import NamesTable
from maplabel_atlas.store import About, Atlas, Store, new_identity
from maplabel_atlas.telling import Teller
from maplabel_atlas.updating import Updater
from maplabel_atlas.workers import Cluster, Pool, Threads, Workers


def engine_of(told: argparse.Namespace) -> Engine:
    """The engine that the command line names."""
    return engine_at(program.find(told.program))


def pool_of(told: argparse.Namespace) -> Pool:
    """Dask's workers: those of the scheduler that the command line names, or processes that are
    started here.
    """
    return Cluster(told.scheduler, told.workers)


def small_pool_of(told: argparse.Namespace) -> Pool:
    """Who answers the few questions of an edit: threads, unless a scheduler is named."""
    if told.scheduler:
        return Cluster(told.scheduler, 1)
    return Threads(told.workers)


def make(told: argparse.Namespace) -> int:
    """Makes an atlas: all labels of a layer with their ends and blockers, in a folder."""
    engine, store, teller = engine_of(told), Store(Path(told.out)), Teller(told.quiet)
    style = making.accepted_style(engine.path, told.style)
    options = Options(told.layer_name, told.id_field, told.crs)
    source = source_of(told.layer, options)
    with store.held(), Workers(engine, pool_of(told), Memo(store.memo)) as workers:
        maker = making.Maker(workers, style, Sizes(told.cell, told.cell), teller)
        made = maker.make(told.layer, source)
        about = About(
            new_identity(), 0, told.layer, options, engine.digest, made.features, source.log()
        )
        store.save(Atlas(made.state, style, about))
        workers.sweep()
        again = sum(sum(one.rounds) for one in made.tiers.accounts)
        teller.say(
            f"made: {workers.asked} questions asked, {workers.known} known from before; "
            f"{again:,} labels asked again for exactness"
        )
    return 0


def edit(told: argparse.Namespace) -> int:
    """Edits an atlas by the lines of a file, or by the changes of the table that it was made of."""
    engine, store, teller = engine_of(told), Store(Path(told.atlas)), Teller(told.quiet)
    if told.features is None and not told.remove and not told.follow:
        raise Fault("edit what? FEATURES, --remove ID or --follow tells it")
    with store.held(), Workers(engine, small_pool_of(told)) as workers:
        if told.follow:
            return _follow(told, store, workers, teller)
        updater = Updater(store, workers, teller)
        texts: tuple[str, ...] = ()
        if told.features is not None:
            texts = tuple(source_of(told.features, Options(None, told.id_field, told.crs)).texts())
        updater.apply(editing.Edit(texts, tuple(told.remove)))
        updater.save()
    return 0


def _follow(told: argparse.Namespace, store: Store, workers: Workers, teller: Teller) -> int:
    """Takes in what has changed in the table that the atlas was made of, once or for ever."""
    to = Published(told.postgis, told.table) if told.postgis else None
    follower = Follower(store, workers, teller, to)
    if told.watch is not None:
        follower.watch(told.watch)
    elif follower.step() == 0:
        teller.say("nothing has changed")
    return 0


def look_over(told: argparse.Namespace) -> int:
    """Asks for all labels, or a share of them, once more in other cells."""
    engine, store, teller = engine_of(told), Store(Path(told.atlas)), Teller(told.quiet)
    atlas = store.load()
    ends = Ends(atlas.state.labels)
    ends.take(atlas.state.until, atlas.state.blocker)
    with Workers(engine, pool_of(told)) as workers:
        found = audit.look_over(
            ends, workers, Sizes(told.cell, told.cell), told.at_once, told.share, teller
        )
    for row in found.rows.tolist()[:20]:
        x, y = ends.labels.place[row].tolist()
        name = ends.labels.ids[row].decode()
        print(
            f"{name} at longitude {x / 1e7:.7f}, latitude {y / 1e7:.7f} does not end as the "
            "engine says"
        )
    teller.say(
        f"{found.looked_at:,} of {len(ends):,} labels looked over, {len(found.rows):,} are wrong"
    )
    if len(found.rows):
        raise Fault(
            f"{len(found.rows):,} labels do not end as the engine says; `atlas make` makes them "
            "anew"
        )
    return 0


def publish(told: argparse.Namespace) -> int:
    """Writes an atlas for servers: a PostGIS table, GeoJSON lines, a GeoPackage, vector tiles."""
    store, teller = Store(Path(told.atlas)), Teller(told.quiet)
    wanted = [
        one for one in (told.postgis, told.lines, told.geopackage, told.mbtiles, told.tiles) if one
    ]
    if not wanted:
        raise Fault("publish what? --postgis, --lines, --geopackage, --mbtiles or --tiles tells it")
    atlas = store.load()
    if told.postgis:
        publishing.to_postgis(store, atlas, told.postgis, told.table, teller)
    if len(wanted) > bool(told.postgis):
        publishing.to_files(atlas, _files(told), teller)
    return 0


def _files(told: argparse.Namespace) -> publishing.Files:
    first, last = told.zooms
    if not 0 <= first <= last <= 22:
        raise Fault(
            f"--zooms {first} {last} are no zooms: the first is at most the last, and both are "
            "from 0 to 22"
        )
    kinds = (("MBTILES", told.mbtiles), ("MVT", told.tiles))
    tiles = tuple(Tiles(kind, Path(path), first, last) for kind, path in kinds if path)
    return publishing.Files(told.lines, told.geopackage, tiles)


def view(told: argparse.Namespace) -> int:
    """Prints a view out of a published table: the JSON that the engine's /view gives."""
    scale = Fraction(told.scale)
    window = (told.cx, told.cy, told.w, told.h, scale.numerator, scale.denominator)
    print(NamesTable(told.postgis, told.table).view(window))
    return 0


def why(told: argparse.Namespace) -> int:
    """Prints how a feature's label stands, or why it has none, as the engine's /why does; without
    ids, counts.
    """
    atlas = Store(Path(told.atlas)).load()
    if told.reason is not None:
        return _list_bare(atlas, told.reason)
    if not told.ids:
        counts = atlas.state.bare.counts()
        print(
            json_text(
                {
                    "features": atlas.about.features,
                    "labels": len(atlas.state.labels),
                    "without": counts,
                }
            )
        )
        return 0
    unknown = 0
    for name in told.ids:
        found = _why(atlas, name)
        unknown += found is None
        print(json_text(found or {"error": "Unknown", "id": name}))
    return 1 if unknown else 0


def _why(atlas: Atlas, name: str) -> dict[str, object] | None:
    state, own = atlas.state, name.encode()
    rows = (state.labels.ids == own).nonzero()[0]
    if len(rows):
        return explained(state, int(rows[0]))
    reason = state.bare.reason_of(own)
    return None if reason is None else {"id": name, "reason": reason}


def explained(state: editing.State, row: int) -> dict[str, object]:
    """How a label stands, as the engine's /why tells it."""
    labels, by = state.labels, int(state.blocker[row])
    return {
        "blocker": None if by < 0 else labels.ids[by].decode(),
        "id": labels.ids[row].decode(),
        "max": "%d/%d" % tuple(labels.most[row]),
        "min": "%d/%d" % tuple(labels.least[row]),
        "until": "%d/%d" % tuple(state.until[row]),
    }


def _list_bare(atlas: Atlas, reason: str) -> int:
    """Prints the ids of the features that have no label for a reason."""
    bare = atlas.state.bare
    names = bare.ids_for(reason)
    sys.stdout.writelines(f"{name.decode()}\n" for name in names.tolist())
    return 0
