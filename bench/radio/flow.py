"""The filter and the scaler of ../worker as flowgraphs of GNU Radio, block by block, over integers of 32 bits.

`flow.py NAME PARAM RESULT TIMES` reads lines `PARAM VALUE`, prints lines `RESULT VALUE`, and adds the nanoseconds of the run alone, from
memory to memory, to a file. `flow.py NAME IN OUT` goes from a file of such integers to another.
"""
import sys
import time

import numpy
from gnuradio import analog, blocks, gr

ITEM = gr.sizeof_int


def divided(flow, number, divisor):
    quotient = blocks.divide_ii()
    flow.connect(number, (quotient, 0))
    flow.connect(analog.sig_source_i(0, analog.GR_CONST_WAVE, 0, 0, divisor), (quotient, 1))
    return quotient


def filtered(flow, x):
    d1, d2 = blocks.delay(ITEM, 1), blocks.delay(ITEM, 1)
    total = blocks.add_ii()
    flow.connect(x, (total, 0))
    flow.connect(x, d1, blocks.multiply_const_ii(2), (total, 1))
    flow.connect(d1, d2, (total, 2))
    return divided(flow, total, 4)


def scaled(flow, pixel):
    total = blocks.add_ii()
    flow.connect(pixel, (total, 0))
    flow.connect(pixel, blocks.delay(ITEM, 1), (total, 1))
    half = blocks.keep_m_in_n(ITEM, 1, 2, 1)
    kept = blocks.keep_m_in_n(ITEM, 2, 4, 0)
    flow.connect(divided(flow, total, 2), half, kept)
    return kept


def run(name, source, sink):
    """The nanoseconds that a run from the source to the sink takes."""
    flow = gr.top_block()
    build = {"filter": filtered, "scaler": scaled}[name]
    flow.connect(build(flow, source), sink)
    began = time.perf_counter_ns()
    flow.run()
    return time.perf_counter_ns() - began


def lines(name, param, result, times):
    text = sys.stdin.read().replace(param, "")
    items = numpy.fromstring(text, dtype=numpy.int32, sep=" ").tolist()
    sink = blocks.vector_sink_i(1, len(items))
    took = run(name, blocks.vector_source_i(items), sink)
    printed = sink.data()
    sys.stdout.write(f"{result} %d\n" * len(printed) % tuple(printed))
    with open(times, "a") as file:
        print(took, file=file)


def files(name, source, sink):
    run(name, blocks.file_source(ITEM, source), blocks.file_sink(ITEM, sink))


(lines if len(sys.argv) == 5 else files)(*sys.argv[1:])
