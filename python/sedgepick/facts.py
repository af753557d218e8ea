"""What --json prints of a mesh, and a report under a name with .json has; docs/COMMAND.md has the
schema."""
from __future__ import annotations
import platform
from typing import Any
import numpy
from . import library, meshing, quality
from .answers import SCHEMA
from .mesh_files import Work, name_of
from .msh import meshio
from .surfaces import visible


def facts_of(work: Work) -> dict[str, Any]:
    """Of a mesh that is made and accepted, before it has its name."""
    surface, result, output = work.surface, work.result, work.options.output
    least = lambda cells, measure: float(measure(work.points, cells).min()) if len(cells) else None
    quads, left = len(result.quads), len(result.triangles)
    return {
        'schema': SCHEMA, 'status': 3 if work.warnings else 0,
        'words': 'written, with a warning' if work.warnings else 'written',
        'input': {
            'name': surface.name, 'sha256': surface.sha256,
            'triangles': len(surface.triangles.cells),
            'nodes': len(numpy.unique(surface.triangles.cells)),
        },
        'output': {
            'name': visible(name_of(output)), 'sha256': work.outputs.digest(output),
            'nodes': int((work.number >= 0).sum()),
        },
        'quads': quads, 'triangles': left, 'share_of_quads': quads / max(quads + left, 1),
        'least_angle_of_quads': least(result.quads, quality.least_angles),
        'least_angle_of_triangles': least(result.triangles, quality.least_angles),
        'least_scaled_jacobian': least(result.quads, quality.scaled_jacobians),
        'nodes_added': len(result.added), 'nodes_dropped': meshing.dropped(work),
        'verdict': verdict_of(work),
        'kept': [
            {'what': loss.what, 'of': int(loss.total), 'lost': len(loss.lost)}
            for loss in work.losses
        ],
        'parts': {
            'count': len(result.sizes), 'cut_by': result.cutter,
            'sizes': [float(size) for size in result.sizes],
        },
        'attempts': sum(counts.attempts for counts in result.counts),
        'warnings': list(work.warnings), 'notes': list(surface.notes),
        'seconds': round(work.seconds, 3), 'options': work.options.words,
        **({'job': account_of(work.slab)} if work.slab else {}), 'versions': versions(),
    }


def verdict_of(work: Work) -> dict[str, Any]:
    """Clause by clause, as the proved acceptance decided."""
    judged = work.judged
    found = judged.verdict
    return {
        'accepted': bool(found.accepted),
        'clauses': [
            {'name': name, 'holds': words is None, 'offender': words}
            for name, words in judged.clauses()
        ],
        'largest_cosine_of_quads': float(found.judged.cosine),
        'least_angle_asked_of_triangles': float(work.settings.thin),
        'excused': judged.excused or None,
        'groups_of_triangles': [int(size) for size in found.sizes], 'odd_groups': int(found.odd),
    }


def account_of(slab: Any) -> dict[str, int]:
    """What a file of a job was given, was charged and left."""
    return {
        name: int(getattr(slab, name)) for name in ('share', 'entitled', 'limit', 'charged', 'left')
    }


def versions() -> dict[str, Any]:
    return {
        'sedgepick': library.version(), 'interface': library.abi(), 'commit': library.commit(),
        'build': library.build(), 'meshio': getattr(meshio, '__version__', None),
        'numpy': numpy.__version__, 'python': platform.python_version(),
    }
