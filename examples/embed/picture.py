#!/usr/bin/env python3
"""Paints two dabs, takes the second back, and saves the picture as picture.ppm.

    pip install /usr/local/share/strokes/strokes-*.whl
    python3 picture.py
"""
import pathlib

import strokes

BRUSH = strokes.Brush(0x2060A0FF, radius=60)

with strokes.Crew(strokes.Desk(640, 480)) as crew:
    with crew.lock() as desk:
        desk.feed("layer 1 0 0")
        for number, x in enumerate((200, 440), 1):
            with desk.stroke(number, layer=1) as stroke:
                stroke.dab(x, 240, BRUSH)
        desk.undo()
    crew.settle()
    with crew.lock() as desk, desk.shoot() as shot:
        pathlib.Path("picture.ppm").write_bytes(shot.ppm())
