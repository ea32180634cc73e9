"""Draws rollouts as SVG, by Debian's python3-matplotlib."""
import bisect

POINTS = 60
# so that the file has text as text, and is the same each time
SETTINGS = {"svg.fonttype": "none", "svg.hashsalt": "fleet", "font.size": 9, "axes.grid": True, "grid.alpha": 0.3,
            "axes.spines.top": False, "axes.spines.right": False}
COLOURS = ("#0b6e4f", "#b3541e", "#2b59c3", "#7a3b9e")
PACKAGE = "python3-matplotlib"


def is_there():
    try:
        import matplotlib  # noqa: F401
    except ImportError:
        return False
    return True


def share_of(times, count, until):
    """Points of a curve: times up to a greatest one, and of 100 proxies how many were reached by then."""
    at = [until * number / (POINTS - 1) for number in range(POINTS)]
    return at, [100 * bisect.bisect_right(times, time) / count for time in at]


def draw(file, curves, reaches):
    """Two panels. `curves`: name, ascending times, number of proxies, whether it is a refusal. `reaches`: name, and pairs of a number of
    proxies and the seconds until 99 of 100 have the update."""
    import matplotlib
    matplotlib.use("svg")
    import matplotlib.pyplot as plot

    with matplotlib.rc_context(SETTINGS):
        figure, (left, right) = plot.subplots(1, 2, figsize=(9, 3.4))
        until = 1.05 * max(times[-1] for _, times, _, _ in curves if times)
        for colour, (name, times, count, is_refusal) in zip(COLOURS, curves):
            left.plot(*share_of(times, count, until), label=name, color=colour, linestyle="--" if is_refusal else "-")
        left.set(xlabel="seconds", ylabel="of 100 proxies", ylim=(0, 102), xlim=(0, until), title="One update")
        for colour, (name, pairs) in zip(COLOURS, reaches):
            right.plot([count for count, _ in pairs], [time for _, time in pairs], marker="o", markersize=3, label=name, color=colour)
        right.set(xscale="log", yscale="log", xlabel="proxies", ylabel="seconds until 99 of 100 have it", title="By size and link")
        right.xaxis.set_major_formatter("{x:,g}")
        right.yaxis.set_major_formatter("{x:g}")
        for panel in (left, right):
            panel.minorticks_off()
            panel.legend(frameon=False, fontsize=8)
        figure.tight_layout()
        figure.savefig(file, metadata={"Date": None})
        plot.close(figure)
