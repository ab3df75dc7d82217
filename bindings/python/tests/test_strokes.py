"""Tests of the package: in bindings/python, `python3 -m unittest`."""
import gc
import pathlib
import tempfile
import threading
import unittest
import zipfile

import backend
import strokes

RED = strokes.Brush(0xFF0000FF, radius=9, soft=False)


def new_desk(**more):
    desk = strokes.Desk(200, 100, **more)
    desk.feed("layer 1 0 0")
    return desk


def paint(desk, number, x):
    with desk.stroke(number, layer=1) as stroke:
        stroke.dab(x, 50, RED)


def pixel(shot, x, y):
    return tuple(shot.read(strokes.Rect(x, y, 1, 1)))


class Desks(unittest.TestCase):
    def test_work_is_done_in_pieces(self):
        with new_desk() as desk, strokes.Piece() as piece:
            paint(desk, 1, 50)
            drawn = []
            while (answer := desk.take(piece)) != strokes.Answer.SETTLED:
                self.assertIn(answer, (strokes.Answer.OK, strokes.Answer.AGAIN))
                if answer == strokes.Answer.OK:
                    piece.work()
                    drawn.append(desk.give(piece))
            self.assertTrue(any(drawn))
            self.assertFalse(any(desk.outcome(entry).was_refused for entry in range(desk.count.outcomes)))

    def test_a_block_that_raises_cancels_its_stroke(self):
        with new_desk() as desk:
            with self.assertRaises(ZeroDivisionError), desk.stroke(1, layer=1) as stroke:
                stroke.dab(50, 50, RED)
                stroke.dab(1 // 0, 50, RED)
            desk.settle()
            self.assertEqual(desk.outcome(1).what, strokes.CANCELLED)
            self.assertEqual(pixel(desk.shoot(), 50, 50), (255, 255, 255))

    def test_undo_and_redo(self):
        with new_desk() as desk:
            paint(desk, 1, 50)
            desk.undo()
            desk.redo()
            desk.redo()
            desk.settle()
            self.assertEqual(pixel(desk.shoot(), 50, 50), (255, 0, 0))
            self.assertEqual(desk.outcome(4).what, strokes.NO_REDO)

    def test_texts_and_lines(self):
        with self.assertRaises(strokes.Error) as told:
            strokes.Desk.of_script("canvas 9 9 ffffff\nlayer 1 0\n")
        self.assertEqual((told.exception.answer, told.exception.line), (strokes.Answer.FIELD_COUNT, 2))
        self.assertEqual(str(told.exception), "line 2: wrong number of fields")
        with new_desk() as desk:
            paint(desk, 1, 50)
            with strokes.Desk.of_script(desk.text()) as again:
                self.assertEqual(again.count.commands, desk.count.commands)

    def test_numbers_are_never_cut_off(self):
        with new_desk() as desk:
            for call in (
                lambda: desk.stroke(1, layer=65537),
                lambda: desk.stroke(-1, layer=1),
                lambda: desk.outcome(-1),
                lambda: strokes.Desk(1 << 32, 9),
            ):
                with self.assertRaises(strokes.Error):
                    call()
            with desk.stroke(1, layer=1) as stroke:
                for call in (
                    lambda: stroke.dab(1 << 32, 0, RED),
                    lambda: stroke.dab(0, 0, strokes.Brush(0, radius=256)),
                    lambda: stroke.path([(0, 0), (9, 9)], 256, RED),
                ):
                    with self.assertRaises(strokes.Error) as told:
                        call()
                    self.assertEqual(told.exception.answer, strokes.Answer.OUT_OF_RANGE)

    def test_all_else_is_the_librarys(self):
        with new_desk() as desk:
            stroke = desk.stroke(7, layer=1, exclusive=True)
            stroke.path([(5, 5), (90, 80)], 3, RED)
            with self.assertRaises(strokes.Error):
                stroke.path([], 3, RED)
            self.assertFalse(desk.all_closed)
            with self.assertRaises(strokes.Error) as told:
                desk.settle()
            self.assertEqual(told.exception.answer, strokes.Answer.STROKE_LEFT)
            stroke.cancel()
            desk.feed(b"export")
            while desk.small():
                pass
            desk.settle()
            self.assertTrue(desk.all_closed)
            self.assertEqual(desk.frame(0), b"\xff" * 60000)
            tile, dirty = desk.tile(3, 1)
            self.assertEqual((len(tile), bool(dirty)), (16384, False))
            self.assertEqual(desk.canvas, (200, 100, 0xFFFFFF))


class Shots(unittest.TestCase):
    def test_pixels_go_into_any_buffer(self):
        with new_desk() as desk:
            paint(desk, 1, 50)
            desk.settle()
            with desk.shoot() as shot:
                self.assertFalse(shot.dirty)
                whole = shot.read()
                self.assertEqual(len(whole), 3 * 200 * 100)
                rect = strokes.Rect(40, 45, 20, 10)
                out = bytearray(700)
                self.assertIs(shot.read(rect, out), out)
                rows = b"".join(whole[3 * (200 * y + 40) :][:60] for y in range(45, 55))
                self.assertEqual(out, rows + bytes(100))
                with self.assertRaises(strokes.Error) as told:
                    shot.read(rect, bytearray(599))
                self.assertEqual(told.exception.answer, strokes.Answer.NO_ROOM)
                with self.assertRaises(strokes.Error) as told:
                    shot.read(strokes.Rect(190, 0, 20, 1))
                self.assertEqual(told.exception.answer, strokes.Answer.OUTSIDE)
                with self.assertRaises(TypeError):
                    shot.read(rect, bytes(700))

    def test_numpy_takes_them(self):
        try:
            import numpy
        except ImportError:
            self.skipTest("no numpy is there")
        with new_desk() as desk:
            paint(desk, 1, 50)
            desk.settle()
            picture = numpy.zeros((100, 200, 3), dtype=numpy.uint8)
            desk.shoot().read(out=picture)
            self.assertEqual(picture[50, 50].tolist(), [255, 0, 0])
            self.assertEqual(picture[0, 0].tolist(), [255, 255, 255])

    def test_a_shot_outlives_its_desk(self):
        with new_desk() as desk:
            shot = desk.shoot()
        self.assertEqual(pixel(shot, 0, 0), (255, 255, 255))
        self.assertEqual(shot.ppm()[:15], b"P6\n200 100\n255\n")
        shot.close()
        with self.assertRaises(strokes.Error) as told:
            shot.read()
        self.assertEqual(told.exception.answer, strokes.Answer.SHUT)


class Crews(unittest.TestCase):
    def test_hands_on_threads(self):
        with strokes.Crew(new_desk(), 2) as crew:

            def hand(number):
                with crew.lock() as desk:
                    paint(desk, number, 20 + 40 * number)

            hands = [threading.Thread(target=hand, args=(number,)) for number in range(4)]
            for it in hands:
                it.start()
            for it in hands:
                it.join()
            self.assertTrue(crew.settle())
            with crew.lock() as desk, desk.shoot() as shot:
                self.assertEqual([pixel(shot, 20 + 40 * number, 50) for number in range(4)], [(255, 0, 0)] * 4)

    def test_news(self):
        came = threading.Event()
        with strokes.Crew(new_desk(), 1, came.set) as crew:
            with crew.lock() as desk:
                paint(desk, 1, 50)
            self.assertTrue(came.wait(60))
            self.assertTrue(crew.settle(60))
            news = crew.news()
            self.assertTrue(news.redraw and not news.lacks_memory)
            self.assertFalse(crew.wait(0).redraw)
            desk = crew.stop()
            with self.assertRaises(strokes.Error), crew.lock():
                pass
        self.assertEqual(pixel(desk.shoot(), 50, 50), (255, 0, 0))
        desk.close()

    def test_an_open_stroke_is_told(self):
        with strokes.Crew(new_desk()) as crew:
            with crew.lock() as desk:
                stroke = desk.stroke(1, layer=1)
            with self.assertRaises(strokes.Error) as told:
                crew.settle()
            self.assertEqual(told.exception.answer, strokes.Answer.STROKE_LEFT)
            with self.assertRaises(strokes.Error):
                stroke.dab(1, 1, RED)  # the lock was let go
            with crew.lock() as desk:
                desk.feed("cancel 1")
            self.assertTrue(crew.settle())

    def test_a_crew_that_cannot_start_leaves_the_desk(self):
        with new_desk() as desk:
            with self.assertRaises(strokes.Error):
                strokes.Crew(desk, 17)
            desk.settle()

    def test_the_collector_closes_what_nobody_has(self):
        crew = strokes.Crew(new_desk())
        shot = new_desk().shoot()
        del crew, shot
        gc.collect()


class Wheels(unittest.TestCase):
    def test_the_wheel_has_the_shared_objects(self):
        with tempfile.TemporaryDirectory() as folder:
            name = backend.build_wheel(folder)
            with zipfile.ZipFile(pathlib.Path(folder, name)) as wheel:
                names = set(wheel.namelist())
                record = wheel.read("strokes-1.0.0.dist-info/RECORD").decode().splitlines()
        self.assertLessEqual({"strokes/__init__.py", "strokes/py.typed", *(f"strokes/{it}" for it in backend.SHARED)}, names)
        self.assertEqual({line.split(",")[0] for line in record}, names)


if __name__ == "__main__":
    unittest.main()
