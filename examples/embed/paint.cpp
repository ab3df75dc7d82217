// Paints a script as the command does, in C++17.
//
//     paint_cpp THREADS [picture|live] < SCRIPT > PICTURES
//
// A crew of 1 to 16 threads paints, and the caller helps at the end. The exit codes are the command's.
#include "strokes.hpp"
#include <cstdio>
#include <cstdlib>
#include <iostream>
#include <iterator>
#include <new>
#include <string>
#include <string_view>
#include <vector>

namespace {

bool says_nothing(std::string_view line) {
    std::size_t at = line.find_first_not_of(" \t\r");
    return at == std::string_view::npos || line[at] == '#';
}

// Takes the next line off the text.
std::string_view next_line(std::string_view &text) {
    std::size_t end = text.find('\n');
    std::string_view line = text.substr(0, end);
    text.remove_prefix(end == std::string_view::npos ? text.size() : end + 1);
    return line;
}

// Writes a portable pixmap of the rows that `lay` lays one after another.
template <class Lay> void write_pixmap(const strokes::Canvas &canvas, Lay lay) {
    std::vector<std::uint8_t> row(3ul * canvas.w);
    std::cout << "P6\n" << canvas.w << ' ' << canvas.h << "\n255\n";
    for (std::uint32_t y = 0; y < canvas.h; y++) {
        lay(static_cast<std::uint16_t>(y), row);
        std::cout.write(reinterpret_cast<const char *>(row.data()), static_cast<std::streamsize>(row.size()));
    }
}

// Writes each frame, or the picture of the document as it is.
void write_pictures(strokes::Desk &desk, bool is_live) {
    strokes::Canvas canvas = desk.canvas();
    if (is_live) {
        strokes::Shot shot = desk.shoot();
        write_pixmap(canvas, [&](std::uint16_t y, auto &row) { shot.row(0, y, row); });
        return;
    }
    strokes::Count count = desk.count();
    for (std::uint64_t frame = 0; frame < count.frames; frame++)
        write_pixmap(canvas, [&](std::uint16_t y, auto &row) { desk.frame_row(frame, y, row); });
}

bool was_refused(strokes::Desk &desk) {
    strokes::Count count = desk.count();
    for (std::uint64_t entry = 0; entry < count.outcomes; entry++)
        if (desk.outcome(entry).what > STROKES_CANCELLED) return true;
    return false;
}

// Paints, and gives the exit code. `line` is the one at hand.
int paint_script(std::string_view rest, int threads, bool is_live, unsigned &line) {
    std::string_view first;
    do {
        if (rest.empty()) throw strokes::Error(STROKES_CANVAS_MISSING);
        first = next_line(rest);
        line++;
    } while (says_nothing(first));
    auto slots = static_cast<std::uint8_t>(threads + 1);
    strokes::Crew crew(strokes::Desk::of_script(first, slots), static_cast<std::uint32_t>(threads));
    while (!rest.empty()) {
        line++;
        crew.lock().feed(next_line(rest));
    }
    line = 0;
    crew.settle();
    strokes::Desk desk = crew.stop();
    write_pictures(desk, is_live);
    std::cout.flush();
    return !std::cout ? 5 : was_refused(desk) ? 1 : 0;
}

} // namespace

int main(int argc, char **argv) {
    int threads = argc > 1 ? std::atoi(argv[1]) : 0;
    std::string_view what = argc == 3 ? argv[2] : "picture";
    if (threads < 1 || threads > STROKES_CREW_MOST_THREADS || argc > 3 || (what != "picture" && what != "live")) {
        std::cerr << "usage: paint_cpp THREADS [picture|live] < SCRIPT > PICTURES\n";
        return 2;
    }
    unsigned line = 0;
    try {
        std::ios::sync_with_stdio(false);
        std::string text{std::istreambuf_iterator<char>(std::cin), {}};
        return paint_script(text, threads, what == "live", line);
    } catch (const strokes::Error &error) {
        std::cerr << "paint_cpp: ";
        if (line > 0) std::cerr << "line " << line << ": ";
        std::cerr << error.what() << '\n';
        return error.answer() == STROKES_NO_MEMORY ? 6 : 3;
    } catch (const std::bad_alloc &) {
        std::cerr << "paint_cpp: out of memory\n";
        return 6;
    }
}
