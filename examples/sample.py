"""The curves of a simulator as a report: here of two.net, for all who leave by 4. Numbers are ints or texts as "17/2", never floats."""
import nfot

net = nfot.read_network("two.net")
report = nfot.Report(
    horizon=4, reached=4, network=net,
    labels={"s": [(0, 0), (4, 4)], "t": [(0, 1), (1, 4), (4, "17/2")]},  # arrival by departure
    inflows={"a": [(0, 0), (1, 3), (4, "15/2")], "b": [(0, 0), (1, 0), (4, "9/2")]},  # amount that has entered, by time
    outflows={"a": [(1, 0), ("17/2", "15/2")], "b": [(4, 0), ("17/2", "9/2")]},  # amount that has left, by time
    queues={"a": [(0, 0), (1, 2), (4, "7/2")], "b": [(0, 0), (1, 0), (4, "3/2")]})  # amount that waits, by time
nfot.write_report(report, "sample.report")
print(nfot.check(net, report))
