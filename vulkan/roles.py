"""The roles of format 3 in which an action uses a piece: at which stages, and how it reads and writes it there."""

import collections

# `stage` is None where the use names the stages itself.
Role = collections.namedtuple("Role", "stage reads writes")

SHADERS = ("VERTEX_SHADER", "FRAGMENT_SHADER", "COMPUTE_SHADER")
TESTS = "EARLY_FRAGMENT_TESTS|LATE_FRAGMENT_TESTS"
ROLES = {
    "indirect": Role("DRAW_INDIRECT", "INDIRECT_COMMAND_READ", None),
    "index": Role("INDEX_INPUT", "INDEX_READ", None),
    "vertex": Role("VERTEX_ATTRIBUTE_INPUT", "VERTEX_ATTRIBUTE_READ", None),
    "uniform": Role(None, "UNIFORM_READ", None),
    "sampled": Role(None, "SHADER_SAMPLED_READ", None),
    "input": Role("FRAGMENT_SHADER", "INPUT_ATTACHMENT_READ", None),
    "storage_read": Role(None, "SHADER_STORAGE_READ", None),
    "storage_write": Role(None, None, "SHADER_STORAGE_WRITE"),
    "storage": Role(None, "SHADER_STORAGE_READ", "SHADER_STORAGE_WRITE"),
    "color": Role("COLOR_ATTACHMENT_OUTPUT", "COLOR_ATTACHMENT_READ", "COLOR_ATTACHMENT_WRITE"),
    "depth": Role(TESTS, "DEPTH_STENCIL_ATTACHMENT_READ", "DEPTH_STENCIL_ATTACHMENT_WRITE"),
    "depth_read": Role(TESTS, "DEPTH_STENCIL_ATTACHMENT_READ", None),
    "copy_read": Role("COPY", "TRANSFER_READ", None),
    "copy_write": Role("COPY", None, "TRANSFER_WRITE"),
    "blit_read": Role("BLIT", "TRANSFER_READ", None),
    "blit_write": Role("BLIT", None, "TRANSFER_WRITE"),
    "resolve_read": Role("RESOLVE", "TRANSFER_READ", None),
    "resolve_write": Role("RESOLVE", None, "TRANSFER_WRITE"),
    "clear_write": Role("CLEAR", None, "TRANSFER_WRITE"),
    # The replay has a copy in its place.
    "present": Role("COPY", "TRANSFER_READ", None),
}


def stages_of(use):
    """The stages of a use, in the order of SHADERS where it names them itself."""
    fixed = ROLES[use["as"]].stage
    return fixed.split("|") if fixed else [stage for stage in SHADERS if stage in use.get("stage", "").split("|")]


def loads_old_bytes(use):
    """Whether the old bytes count: all reads do, and stores that keep some of them."""
    role = ROLES[use["as"]]
    return role.writes is None or use["as"] == "storage" or use.get("keeps", use["as"] != "storage_write")
