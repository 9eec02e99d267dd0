"""A pattern in a graph of networkx: who would have to choose between two friends when the karate club split?

Needs networkx. In a notebook, `places` shows a table and `places.picture()` a picture.
"""

import networkx
from rizhavaan import Hang, Pattern

# The club's members are the items; each friendship, which has no direction, is a connection both ways.
hang = Hang.from_networkx(networkx.karate_club_graph(), kind="club", connection=None)

# Two friends who went different ways, and a third who is the friend of both.
torn = networkx.Graph([("torn", "left"), ("torn", "right"), ("left", "right")])
torn.add_node("left", kind="Mr. Hi")
torn.add_node("right", kind="Officer")
pattern = Pattern.from_networkx(torn, name="torn", sentence="A friend of two friends who went different ways.")
places = hang.find(pattern)

print(places)
print("members in this place:", sorted({place.torn for place in places}))
