"""Submissions for tests of the viewer: a large one, and one of format 3."""

EVERYTHING = {"src_stage": "ALL_COMMANDS", "src_access": "MEMORY_WRITE", "dst_stage": "ALL_COMMANDS", "dst_access": "MEMORY_READ|MEMORY_WRITE"}


def large(nodes, queues=4, pieces=512, format=2):
    """A submission of nearly so many nodes. Each batch waits for the last one of the queue before, if there is one yet, and has four items;
    two pieces each lie in the same bytes."""
    made = [{"family": "graphics", "batches": []} for _ in range(queues)]
    signalled, k = [0] * queues, 0
    while nodes >= 7:
        q = k % queues
        before = (q - 1) % queues
        waits = [{"queue": before, "value": signalled[before], "stage": "ALL_COMMANDS"}] if signalled[before] else []
        signalled[q] += 1
        items = []
        for piece in (2 * k % pieces, (2 * k + 1) % pieces):
            items += [{"item": "buffer", "piece": piece, **EVERYTHING}, {"item": "command", "op": "fill_buffer", "dst": piece, "offset": 0, "size": 256, "word": k}]
        made[q]["batches"].append({"waits": waits, "items": items, "signal": {"value": signalled[q], "stage": "ALL_COMMANDS"}})
        nodes -= len(waits) + 5
        k += 1
    places = [{"buffer": 256, "memory": 0, "offset": 256 * (piece // 2)} for piece in range(pieces)]
    return {"format": format, "memories": [{"size": 128 * pieces}], "pieces": places, "queues": made, "readbacks": [0]}


def wide():
    """A frame of format 3: an image of the outside that is drawn, sampled and presented, with names, joined barriers and a hand-over."""
    to_color = {"src_stage": "COLOR_ATTACHMENT_OUTPUT", "src_access": "", "dst_stage": "COLOR_ATTACHMENT_OUTPUT", "dst_access": "COLOR_ATTACHMENT_WRITE"}
    to_depth = {"src_stage": "LATE_FRAGMENT_TESTS", "src_access": "", "dst_stage": "EARLY_FRAGMENT_TESTS", "dst_access": "DEPTH_STENCIL_ATTACHMENT_WRITE"}
    to_shader = {"src_stage": "COLOR_ATTACHMENT_OUTPUT", "src_access": "COLOR_ATTACHMENT_WRITE", "dst_stage": "COMPUTE_SHADER", "dst_access": "SHADER_SAMPLED_READ"}
    to_screen = {"src_stage": "COMPUTE_SHADER", "src_access": "SHADER_STORAGE_WRITE", "dst_stage": "", "dst_access": ""}
    return {
        "format": 3,
        "memories": [{"size": 4096, "name": "vertices"}, {"size": 65536, "name": "attachments"}, {"size": 16384, "name": "swapchain"}],
        "pieces": [
            {"buffer": 4096, "memory": 0, "offset": 0, "initial": {"contents": True}, "name": "mesh"},
            {"image": [64, 64], "texel": "r32", "memory": 1, "offset": 0, "name": "scene"},
            {"texture": 20000, "memory": 1, "offset": 16384, "name": "depth"},
            {"image": [64, 64], "texel": "r32", "memory": 2, "offset": 0, "initial": {"layout": "PRESENT_SRC_KHR", "contents": False}, "final": {"layout": "PRESENT_SRC_KHR"}, "name": "screen"},
        ],
        "queues": [
            {
                "family": "graphics",
                "name": "main",
                "batches": [
                    {
                        "items": [
                            {"item": "image", "piece": 1, "from": "UNDEFINED", "to": "COLOR_ATTACHMENT_OPTIMAL", **to_color},
                            {"item": "image", "piece": 2, "from": "UNDEFINED", "to": "DEPTH_STENCIL_ATTACHMENT_OPTIMAL", **to_depth, "joined": True},
                            {"item": "command", "op": "action", "code": 1, "name": "draw the scene", "uses": [{"piece": 0, "as": "vertex"}, {"piece": 1, "as": "color", "keeps": False}, {"piece": 2, "as": "depth", "keeps": False}]},
                            {"item": "image", "piece": 1, "from": "COLOR_ATTACHMENT_OPTIMAL", "to": "SHADER_READ_ONLY_OPTIMAL", **to_shader},
                            {"item": "image", "piece": 3, "from": "UNDEFINED", "to": "GENERAL", **to_shader, "joined": True},
                            {"item": "command", "op": "action", "code": 2, "name": "tone map", "uses": [{"piece": 1, "as": "sampled", "stage": "COMPUTE_SHADER"}, {"piece": 3, "as": "storage_write", "stage": "COMPUTE_SHADER"}]},
                            {"item": "image", "piece": 3, "from": "GENERAL", "to": "PRESENT_SRC_KHR", **to_screen},
                        ],
                        "signal": {"value": 1, "stage": "ALL_COMMANDS"},
                    }
                ],
            },
            {
                "family": "graphics",
                "name": "screen",
                "batches": [{"waits": [{"queue": 0, "value": 1, "stage": "ALL_COMMANDS"}], "items": [{"item": "command", "op": "action", "code": 0, "name": "present", "uses": [{"piece": 3, "as": "present"}]}], "signal": {"value": 1, "stage": "ALL_COMMANDS"}}],
            },
        ],
        "readbacks": [],
        "name": "a wide frame",
    }
