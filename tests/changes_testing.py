"""Changes as they are typed, for the readers of the viewer's page and of fdb: what each is, worked out by hand. A
moved event's number is that which it has then."""
KINDS = ["clear", "blend", "draw", "marker", "depth"]
OF_BLEND = "set EVENT NAME VALUE: event 2 is a blend, and has enable, rgb, alpha, mask"
LINES = {
    "set 1 color 1 2 3 4": {"set": 1, "members": {"color": [1, 2, 3, 4]}},
    "set 2 mask 15": {"set": 2, "members": {"mask": 15}},
    "set 2 enable off": {"set": 2, "members": {"enable": False}},
    "set 2 rgb ONE ZERO ADD": {"set": 2, "members": {"rgb": ["ONE", "ZERO", "ADD"]}},
    " set  5 func LESS ": {"set": 5, "members": {"func": "LESS"}},
    "set 4 name a new one": {"set": 4, "members": {"name": "a new one"}},
    "set 2 mask -1": {"set": 2, "members": {"mask": -1}},
    "set 3 interp linear": {"set": 3, "members": {"interp": "linear"}},
    "move 4 after 2": {"move": 4, "to": 3},
    "move 4 before 2": {"move": 4, "to": 2},
    "move 2 after 4": {"move": 2, "to": 4},
    "move 2 before 4": {"move": 2, "to": 3},
    "move 3 after 3": {"move": 3, "to": 3},
    "set 2 color 1 2 3 4": OF_BLEND,
    "set 2 mask": OF_BLEND,
    "set 6 mask 15": "set 6 mask 15: events are numbered from 1 to 5",
    "move 1 2": "move EVENT after EVENT, or move EVENT before EVENT",
}
