import sys

from rekwonuda import Heap, Image, Kind

image = Image(sys.argv[1])
image.check_nodes()
message = Heap(image.read_node(0x20_0024) or sys.exit("absent"))
for found in message.properties():
    print(f"{found.id:#06x}", end="  ")
    match found.kind:
        case Kind.NUMBER: print(found.value)
        case Kind.EMPTY: print("empty")
        case Kind.ITEM: print(len(message.item(found.value)), "bytes")
        case Kind.SUBNODE: print(f"in subnode {found.value:#x}")
