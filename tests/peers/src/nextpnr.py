# Run by nextpnr-generic: builds the graph named by PEERS_GRAPH as an architecture, with an estimate of PEERS_ESTIMATE nanoseconds a tile, binds a
# cell to every pin that a net uses, routes PEERS_TIMES times and writes processor time and branches to PEERS_ANSWER. --router chooses the router.
import os
import time

SOURCE, SINK = "SOURCE", "SINK"


def wire(node):
    return "n" + node


def bel_with_cell(name, port, node, at, output, net):
    """A bel with one port on a node's wire, a cell bound to it, and the net at the port."""
    ctx.addBel(name=name, type=port, loc=at, gb=False, hidden=False)
    if output:
        ctx.addBelOutput(bel=name, name=port, wire=wire(node))
    else:
        ctx.addBelInput(bel=name, name=port, wire=wire(node))
    cell = ctx.createCell(name, port)
    if output:
        cell.addOutput(port)
    else:
        cell.addInput(port)
    ctx.addCellBelPinMapping(name, port, port)
    ctx.connectPort(net, name, port)
    ctx.bindBel(name, cell, STRENGTH_FIXED)


def build(path):
    """The lines of the graph; answers each net's name by its number."""
    place, used, nets = {}, {}, {}
    for line in open(path):
        letter, *fields = line.strip().split(",")
        if letter == "N":
            node, x, y = fields
            place[node] = (int(x), int(y))
            ctx.addWire(name=wire(node), type="WIRE", x=int(x), y=int(y))
        elif letter == "E":
            start, end, x, y, delay = fields
            ctx.addPip(
                name="p%s_%s" % (start, end),
                type="SWITCH",
                srcWire=wire(start),
                dstWire=wire(end),
                delay=ctx.getDelayFromNS(float(delay)),
                loc=Loc(int(x), int(y), 0),
            )
        else:
            net, node = fields
            z = used.get(place[node], 0)
            used[place[node]] = z + 1
            at = Loc(*place[node], z)
            if letter == "S":
                nets[net] = "net" + net
                ctx.createNet(nets[net])
                bel_with_cell("s" + node, SOURCE, node, at, True, nets[net])
            else:
                bel_with_cell("t" + node, SINK, node, at, False, nets[net])
    return nets


def branches(nets):
    """For each net the switches that it uses: B,net,from,to."""
    lines = []
    for number, name in nets.items():
        for key in ctx.nets[name].wires:
            pip = key.second.pip
            if pip:
                start, end = str(pip)[1:].split("_")
                lines.append("B,%s,%s,%s" % (number, start, end))
    return lines


def timed_call():
    """Processor time of one call of the router, in nanoseconds, and whether it routed everything."""
    start = time.process_time_ns()
    done = ctx.route()
    return time.process_time_ns() - start, bool(done)


ctx.setDelayScaling(float(os.environ["PEERS_ESTIMATE"]), 0)
nets = build(os.environ["PEERS_GRAPH"])
with open(os.environ["PEERS_ANSWER"], "w") as answer:
    for _ in range(int(os.environ["PEERS_TIMES"])):
        for name in nets.values():
            ctx.ripupNet(name)
        spent, done = timed_call()
        lines = branches(nets)
        again, _ = timed_call()
        answer.write("A,%d,%d,%d\n" % (done, spent, again))
        answer.write("".join(line + "\n" for line in lines))
        answer.flush()
