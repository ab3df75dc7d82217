// Tests of strokes.hpp: each of its calls, handles that move, and errors.
#include "strokes.hpp"
#include <array>
#include <atomic>
#include <iostream>
#include <thread>
#include <vector>

using namespace std::chrono_literals;

namespace {

const strokes::Brush red{0xff0000ff, 9, 0, STROKES_OVER, 255};
int odds = 0;

void check(bool holds, const char *what, int line) {
    if (holds) return;
    std::cerr << "bindings.cpp:" << line << ": " << what << '\n';
    odds++;
}

#define CHECK(fact) check(fact, #fact, __LINE__)

// The answer of the Error that is thrown; STROKES_OK if none is.
template <class Call> strokes::Answer thrown(Call call) {
    try {
        call();
        return STROKES_OK;
    } catch (const strokes::Error &error) {
        return error.answer();
    }
}

strokes::Desk new_desk() {
    strokes::Desk desk({200, 100, 0xffffff});
    desk.feed("layer 1 0 0");
    return desk;
}

template <class Document> void paint(Document &&desk, std::uint32_t stroke, int x) {
    desk.begin(stroke, 1);
    desk.dab(stroke, x, 50, red);
    desk.end(stroke);
}

bool is_red(strokes::Shot &shot, std::uint16_t x) {
    std::array<std::uint8_t, 3> rgb{};
    shot.row(x, 50, rgb);
    return rgb == std::array<std::uint8_t, 3>{255, 0, 0};
}

void works_in_pieces() {
    strokes::Desk desk = new_desk();
    paint(desk, 1, 50);
    strokes::Piece piece;
    unsigned pieces = 0;
    for (strokes::Answer told; (told = desk.take(piece)) != STROKES_SETTLED;) {
        if (told == STROKES_AGAIN) continue;
        CHECK(told == STROKES_OK && piece);
        CHECK(thrown([&] { desk.take(piece); }) == STROKES_IN_USE);
        CHECK(thrown([&] { desk.give(piece); }) == STROKES_UNDONE);
        if (auto part = piece.share(2)) {
            part->work();
            desk.give(*part);
        }
        std::thread([&] { piece.work(); }).join();
        desk.give(piece);
        CHECK(!piece);
        pieces++;
    }
    CHECK(pieces > 0);
    strokes::Shot shot = desk.shoot();
    CHECK(is_red(shot, 50) && !is_red(shot, 80));
}

void moves() {
    strokes::Desk desk = new_desk(), other = std::move(desk);
    CHECK(!desk && other);
    CHECK(thrown([&] { desk.undo(); }) == STROKES_SHUT);
    desk = std::move(other);
    CHECK(desk && !other);
    std::vector<strokes::Shot> shots;
    for (int i = 0; i < 5; i++) shots.push_back(desk.shoot());
    CHECK(shots.front().rgb({0, 0, 200, 100}) == std::vector<std::uint8_t>(60000, 255));
    strokes::Crew crew(std::move(desk), 1), taken = std::move(crew);
    taken.settle();
    crew = strokes::Crew(new_desk(), 1);
    crew = std::move(taken);
    crew.settle();
}

void tells_errors() {
    try {
        strokes::Desk::of_script("canvas 9 9 ffffff\nlayer 1 0\n");
        CHECK(false);
    } catch (const strokes::Error &error) {
        CHECK(error.answer() == STROKES_FIELD_COUNT && error.line() == 2);
        CHECK(std::string_view(error.what()) == "wrong number of fields");
    }
    CHECK(thrown([] { strokes::Desk({0, 9, 0}); }) == STROKES_OUT_OF_RANGE);
    strokes::Desk desk = new_desk();
    CHECK(thrown([&] { strokes::Crew(std::move(desk), 17); }) == STROKES_OUT_OF_RANGE && desk);
    desk.feed({});
    desk.begin(1, 1);
    CHECK(thrown([&] { desk.path(1, 3, {}, red); }) == STROKES_FIELD_COUNT);
    CHECK(!desk.all_closed() && thrown([&] { desk.settle(); }) == STROKES_STROKE_LEFT);
    desk.cancel(1);
    CHECK(desk.all_closed());
}

void does_all_else() {
    strokes::Desk desk = new_desk();
    desk.begin(7, 1, true);
    desk.path(7, 3, {{5, 5}, {90, 80}}, red);
    desk.dab(7, 150, 50, red, STROKES_CON);
    desk.end(7);
    desk.undo();
    desk.redo();
    desk.feed("export");
    while (desk.small()) {
    }
    desk.settle();
    std::vector<std::uint8_t> tile(16384), row(600);
    CHECK(desk.tile(2, 0, tile).w == 0);
    desk.frame_row(0, 50, row);
    CHECK(row[450] == 255 && row[451] == 0);
    CHECK(thrown([&] { desk.frame_row(1, 0, row); }) == STROKES_OUTSIDE);
    CHECK(desk.canvas().w == 200 && desk.count().frames == 1 && desk.outcome(1).what == STROKES_DONE);
    strokes::Shot shot;
    CHECK(desk.shoot(shot).w == 0 && is_red(shot, 150));
    strokes::Desk again = strokes::Desk::of_script(desk.text());
    CHECK(again.count().commands == desk.count().commands);
}

void crews() {
    std::atomic<int> calls{0};
    strokes::Crew crew(new_desk(), 2, [&] { calls++; });
    std::vector<std::thread> hands;
    for (std::uint32_t hand = 0; hand < 4; hand++)
        hands.emplace_back([&crew, hand] { paint(crew.lock(), hand, 20 + 40 * static_cast<int>(hand)); });
    for (auto &hand : hands) hand.join();
    CHECK(crew.settle_for(60s));
    CHECK(calls > 0);
    strokes::News news = crew.news();
    CHECK(news.redraw.w > 0 && !news.lacks_memory);
    CHECK(crew.wait(0ms).redraw.w == 0);
    strokes::Desk desk = crew.stop();
    CHECK(thrown([&] { crew.lock(); }) == STROKES_SHUT);
    strokes::Shot shot = desk.shoot();
    for (std::uint16_t hand = 0; hand < 4; hand++) CHECK(is_red(shot, static_cast<std::uint16_t>(20 + 40 * hand)));
}

} // namespace

int main() {
    works_in_pieces();
    moves();
    tells_errors();
    does_all_else();
    crews();
    return odds > 0;
}
