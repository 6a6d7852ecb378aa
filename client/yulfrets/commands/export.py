"""`export bcf`: topics as a BCF file."""

from __future__ import annotations

from pathlib import Path

from ..bcf_export import Scene, camera_of, picture_of, rename, whole_topics
from ..bcf_topics import Topic
from ..bcf_write import write_bcf
from ..cameras import Camera
from ..console import counted
from ..context import Context
from ..errors import ExitStatus
from ..snapshots import has_pil
from .topics import chosen


def draw(context: Context, topics: list[Topic], scene: Scene) -> dict[str, Camera]:
    """The camera of each viewpoint; the pictures are put into the viewpoints."""
    cameras: dict[str, Camera] = {}
    pictures = not context.words.no_snapshots
    if pictures and not has_pil():
        context.console.note(
            "no snapshots: the package PIL isn't there (apt-get install python3-pil)"
        )
    with context.console.progress("pictures") as progress:
        for place, topic in enumerate(topics):
            for view in topic.viewpoints:
                cameras[view.guid] = camera_of(view, scene)
                if pictures:
                    view.snapshot = picture_of(view, scene, cameras[view.guid])
            progress(place + 1, len(topics))
    return cameras


def run(context: Context) -> int:
    """Writes the topics that the filters let through."""
    project = context.project
    records = chosen(context, project.topics())
    with context.console.progress("topics") as progress:
        topics = whole_topics(project, records, progress)
    for topic, record in zip(topics, records, strict=True):
        rename(topic, record, context.instance, project.identifier)
    cameras = draw(context, topics, Scene.of(project.version()))
    target = Path(context.words.file)
    about = project.identifier, project.name
    write_bcf(target, topics, cameras, about, context.words.bcf_version)
    views = [view for topic in topics for view in topic.viewpoints]
    summary = {
        "file": str(target),
        "bcf_version": context.words.bcf_version,
        "topics": len(topics),
        "comments": sum(len(topic.comments) for topic in topics),
        "viewpoints": len(views),
        "snapshots": sum(view.snapshot is not None for view in views),
    }
    context.console.say(
        f"{target}: BCF {summary['bcf_version']}, {counted(len(topics), 'topic')},"
        f" {counted(sum(len(topic.comments) for topic in topics), 'comment')},"
        f" {counted(len(views), 'viewpoint')},"
        f" {counted(sum(view.snapshot is not None for view in views), 'snapshot')}"
    )
    context.console.give(summary)
    return ExitStatus.DONE
