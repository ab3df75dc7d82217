// Paints two dabs, takes the second back, and saves the picture as picture.ppm.
//
//     c++ -std=c++17 picture.cpp $(pkg-config --cflags --libs strokes-crew) -o picture && ./picture
#include <fstream>
#include <iostream>
#include <strokes.hpp>

namespace {

void feed(strokes::Crew::Lock desk) {
    desk.feed("layer 1 0 0");
    std::uint32_t stroke = 0;
    for (int x : {200, 440}) {
        desk.begin(++stroke, 1);
        desk.dab(stroke, x, 240, {0x2060a0ff, 60, 1, STROKES_OVER, 255});
        desk.end(stroke);
    }
    desk.undo();
}

void save(strokes::Desk &desk, const char *name) {
    auto [w, h, paper] = desk.canvas();
    auto rgb = desk.shoot().rgb({0, 0, w, h});
    std::ofstream file(name, std::ios::binary);
    file.exceptions(std::ios::failbit | std::ios::badbit);
    file << "P6\n" << w << ' ' << h << "\n255\n";
    file.write(reinterpret_cast<const char *>(rgb.data()), static_cast<std::streamsize>(rgb.size()));
}

} // namespace

int main() try {
    strokes::Crew crew(strokes::Desk({640, 480, 0xffffff}));
    feed(crew.lock());
    crew.settle();
    strokes::Desk desk = crew.stop();
    save(desk, "picture.ppm");
} catch (const std::exception &error) {
    std::cerr << "picture: " << error.what() << '\n';
    return 1;
}
