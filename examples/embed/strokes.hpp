// strokes.hpp: strokes.h and strokes_crew.h for C++17, in this header alone.
//
// A Desk, a Piece, a Shot and a Crew own what they have: each can be moved, none can be copied, and each closes itself. A call
// throws Error where the library's answer isn't what the call is for; Error has the answer, and the library's text for it. What
// strokes.h and strokes_crew.h say of a call, and of threads, holds for the one of the same name here. paint.cpp is an example.
#ifndef STROKES_HPP
#define STROKES_HPP

#include "strokes_crew.h"
#include <chrono>
#include <cstddef>
#include <cstdint>
#include <exception>
#include <functional>
#include <initializer_list>
#include <iterator>
#include <memory>
#include <optional>
#include <string>
#include <string_view>
#include <type_traits>
#include <utility>
#include <vector>

namespace strokes {

using Answer = strokes_answer;
using Brush = strokes_brush;
using Canvas = strokes_canvas;
using Count = strokes_count;
using Outcome = strokes_outcome;
using Point = strokes_point;
using Rect = strokes_rect;

// As many pieces of a desk as may be out at once.
inline constexpr std::uint8_t most_slots = 17;

// An answer other than those that a call is for.
class Error : public std::exception {
  public:
    explicit Error(Answer answer, std::uint32_t line = 0) noexcept : answer_(answer), line_(line) {}
    const char *what() const noexcept override { return strokes_answer_text(answer_); }
    Answer answer() const noexcept { return answer_; }
    // The line of a script, from 1; 0 where it isn't a line that is at fault.
    std::uint32_t line() const noexcept { return line_; }

  private:
    Answer answer_;
    std::uint32_t line_;
};

// Throws an answer that isn't STROKES_OK.
inline void want_ok(Answer answer) {
    if (answer != STROKES_OK) throw Error(answer);
}

// Whether the answer is STROKES_OK. False for another one that is expected; any other is thrown.
inline bool is_ok(Answer answer, Answer expected) {
    if (answer == expected) return false;
    want_ok(answer);
    return true;
}

// Items that lie in a row and belong to somebody else: of an array, or of a container with data() and size().
template <class T> class Span {
  public:
    Span(T *data, std::size_t size) noexcept : data_(data), size_(size) {}
    template <class Items, class = std::enable_if_t<std::is_convertible_v<decltype(std::data(std::declval<Items &>())), T *>>>
    Span(Items &&items) noexcept : data_(std::data(items)), size_(std::size(items)) {}
    T *data() const noexcept { return data_; }
    std::size_t size() const noexcept { return size_; }

  private:
    T *data_;
    std::size_t size_;
};

// A text's pointer, which isn't NULL where the text is empty.
inline const char *text_of(std::string_view text) noexcept { return text.empty() ? "" : text.data(); }

inline bool is_open(const strokes_desk &raw) noexcept { return raw.full; }
inline bool is_open(const strokes_piece &raw) noexcept { return raw.full; }
inline bool is_open(const strokes_shot &raw) noexcept { return raw.full; }
inline bool is_open(const strokes_crew &raw) noexcept { return raw.at != nullptr; }

// A handle of the library, which is closed with the object. One that was moved from is shut.
template <class Raw, void (*close)(Raw *)> class Handle {
  public:
    Handle() noexcept = default;
    Handle(Handle &&other) noexcept : raw_(std::exchange(other.raw_, Raw{})) {}
    Handle &operator=(Handle &&other) noexcept {
        Handle taken(std::move(other));
        std::swap(raw_, taken.raw_);
        return *this;
    }
    ~Handle() { close(&raw_); }
    explicit operator bool() const noexcept { return is_open(raw_); }
    // For calls of the C headers.
    Raw *raw() noexcept { return &raw_; }

  private:
    Raw raw_{};
};

// Work of a desk, which a thread does.
class Piece : public Handle<strokes_piece, strokes_close_piece> {
  public:
    void work() { want_ok(strokes_work(raw())); }
    // A part of the work, for one of so many threads. None where there is nothing to share.
    std::optional<Piece> share(std::uint32_t shares) {
        Piece other;
        if (!is_ok(strokes_share(raw(), shares, other.raw()), STROKES_NOTHING)) return std::nullopt;
        return other;
    }
};

// The root's picture as it was when the shot was taken.
class Shot : public Handle<strokes_shot, strokes_close_shot> {
  public:
    // Copies the pixels from (x, y) to the right, three bytes each, as many as there is room for.
    void row(std::uint16_t x, std::uint16_t y, Span<std::uint8_t> out) {
        auto w = static_cast<std::uint16_t>(out.size() / 3);
        want_ok(strokes_shot_row(raw(), x, y, w, out.data(), out.size()));
    }
    // The pixels of a rectangle, row by row, three bytes each.
    std::vector<std::uint8_t> rgb(const Rect &rect) {
        std::size_t bytes = 3ul * rect.w;
        std::vector<std::uint8_t> out(bytes * rect.h);
        for (std::uint32_t row = 0; row < rect.h; row++) {
            auto y = static_cast<std::uint32_t>(rect.y) + row;
            this->row(static_cast<std::uint16_t>(rect.x), static_cast<std::uint16_t>(y), {out.data() + row * bytes, bytes});
        }
        return out;
    }
};

// The calls of a desk, whether a program owns it or a crew lends it: Self has `raw()`.
template <class Self> class DeskCalls {
  public:
    // Feeding.
    void feed(std::string_view line) { want_ok(strokes_feed(desk(), text_of(line), line.size())); }
    void begin(std::uint32_t stroke, std::uint16_t layer, bool exclusive = false) {
        want_ok(strokes_begin(desk(), stroke, layer, exclusive));
    }
    void dab(std::uint32_t stroke, std::int32_t x, std::int32_t y, const Brush &brush, std::uint32_t kind = STROKES_SEQ) {
        want_ok(strokes_dab(desk(), stroke, kind, x, y, &brush));
    }
    void path(std::uint32_t stroke, std::uint8_t gap, Span<const Point> points, const Brush &brush) {
        const Point none{}; // (no pointer is NULL)
        want_ok(strokes_path(desk(), stroke, gap, points.size() > 0 ? points.data() : &none, points.size(), &brush));
    }
    void path(std::uint32_t stroke, std::uint8_t gap, std::initializer_list<Point> points, const Brush &brush) {
        path(stroke, gap, Span<const Point>(points.begin(), points.size()), brush);
    }
    void end(std::uint32_t stroke) { want_ok(strokes_end(desk(), stroke)); }
    void cancel(std::uint32_t stroke) { want_ok(strokes_cancel(desk(), stroke)); }
    void undo() { want_ok(strokes_undo(desk())); }
    void redo() { want_ok(strokes_redo(desk())); }

    // Work without threads.
    bool small() { return is_ok(strokes_small(desk()), STROKES_NOTHING); } // whether some small jobs were painted
    bool all_closed() { return is_ok(strokes_all_closed(desk()), STROKES_STROKE_LEFT); }
    void settle() { want_ok(strokes_settle(desk())); }

    // What is there.
    Rect tile(std::uint8_t col, std::uint8_t row, Span<std::uint8_t> out) { // what of it is still to be composed
        Rect dirty{};
        want_ok(strokes_tile(desk(), col, row, out.data(), out.size(), &dirty));
        return dirty;
    }
    Rect shoot(Shot &shot) { // what of the shot was still to be composed
        Rect dirty{};
        want_ok(strokes_shoot(desk(), shot.raw(), &dirty));
        return dirty;
    }
    Shot shoot() {
        Shot shot;
        shoot(shot);
        return shot;
    }
    Canvas canvas() {
        Canvas canvas{};
        want_ok(strokes_canvas_of(desk(), &canvas));
        return canvas;
    }
    Count count() {
        Count count{};
        want_ok(strokes_count_of(desk(), &count));
        return count;
    }
    Outcome outcome(std::uint64_t entry) {
        Outcome outcome{};
        want_ok(strokes_outcome_at(desk(), entry, &outcome));
        return outcome;
    }
    void frame_row(std::uint64_t frame, std::uint16_t y, Span<std::uint8_t> out) {
        want_ok(strokes_frame_row(desk(), frame, y, out.data(), out.size()));
    }
    // What was fed, as the text of a script.
    std::string text() {
        std::string text;
        std::size_t written = 1;
        for (std::uint64_t next = 0; written > 0;) {
            char part[4096];
            want_ok(strokes_text(desk(), &next, part, sizeof part, &written));
            text.append(part, written);
        }
        return text;
    }

  private:
    strokes_desk *desk() noexcept { return static_cast<Self *>(this)->raw(); }
};

// A desk that the program owns. It sees to it that one call is made at a time.
class Desk : public Handle<strokes_desk, strokes_close>, public DeskCalls<Desk> {
  public:
    Desk() noexcept = default;
    explicit Desk(const Canvas &canvas, std::uint8_t slots = most_slots) { want_ok(strokes_open(raw(), &canvas, slots)); }
    // A desk that was fed a whole script. Error has the line that is at fault.
    static Desk of_script(std::string_view text, std::uint8_t slots = most_slots) {
        Desk desk;
        std::uint32_t line = 0;
        Answer answer = strokes_open_script(desk.raw(), text_of(text), text.size(), slots, &line);
        if (answer != STROKES_OK) throw Error(answer, line);
        return desk;
    }
    // STROKES_OK: the piece has work; STROKES_AGAIN, STROKES_IDLE or STROKES_SETTLED.
    Answer take(Piece &piece) {
        Answer answer = strokes_take(raw(), piece.raw());
        if (answer > STROKES_SETTLED) throw Error(answer);
        return answer;
    }
    Rect give(Piece &piece) { // what is to be drawn anew
        Rect drawn{};
        want_ok(strokes_give(raw(), piece.raw(), &drawn));
        return drawn;
    }
};

// What is to be drawn anew, and whether memory ended for a thread, which tries again.
struct News {
    Rect redraw;
    bool lacks_memory;
};

// Threads that paint a desk, which is theirs until they are stopped. Any thread may make any of its calls, but moving and stop().
class Crew {
  public:
    // The crew's lock, and its desk as long as the lock is held: a desk's calls but take and give.
    class Lock : public DeskCalls<Lock> {
      public:
        explicit Lock(Crew &crew) : crew_(crew.handle_.raw()), desk_(strokes_crew_lock(crew_)) {
            if (!desk_) throw Error(STROKES_SHUT);
        }
        Lock(const Lock &) = delete;
        Lock &operator=(const Lock &) = delete;
        ~Lock() { strokes_crew_unlock(crew_); }
        strokes_desk *raw() noexcept { return desk_; }

      private:
        strokes_crew *crew_;
        strokes_desk *desk_;
    };

    // Starts threads: 1 to 16, or with 0 as many as suit the machine. One of them calls `news` when there is news, without the
    // lock, once until it is asked for. The desk stays the program's where Error is thrown.
    explicit Crew(Desk &&desk, std::uint32_t threads = 0, std::function<void()> news = {})
        : news_(std::make_unique<std::function<void()>>(std::move(news))) {
        strokes_crew_options options{};
        options.threads = threads;
        options.whose = news_.get();
        if (*news_) options.news = [](void *whose) noexcept { (*static_cast<std::function<void()> *>(whose))(); };
        want_ok(strokes_crew_start(handle_.raw(), desk.raw(), &options));
    }
    Crew(Crew &&) noexcept = default;
    Crew &operator=(Crew &&other) noexcept {
        handle_ = std::move(other.handle_); // (its threads end before what they call)
        news_ = std::move(other.news_);
        return *this;
    }

    Lock lock() { return Lock(*this); }
    // The news since it was asked for last. It may be called with the lock held.
    News news() {
        News news{};
        return told(strokes_crew_news(handle_.raw(), &news.redraw), news);
    }
    // The same, but where there is no news it waits for some.
    News wait(std::chrono::milliseconds limit) {
        News news{};
        return told(strokes_crew_wait(handle_.raw(), milliseconds(limit), &news.redraw), news);
    }
    // Works with the threads until the desk is settled.
    void settle() { want_ok(strokes_crew_settle(handle_.raw(), STROKES_CREW_NO_LIMIT)); }
    // The same for some time. Whether the desk is settled.
    bool settle_for(std::chrono::milliseconds limit) {
        return is_ok(strokes_crew_settle(handle_.raw(), milliseconds(limit)), STROKES_AGAIN);
    }
    // Ends the threads, and gives the desk back.
    Desk stop() {
        Desk desk;
        want_ok(strokes_crew_stop(handle_.raw(), desk.raw()));
        return desk;
    }

  private:
    static News told(Answer answer, News &news) {
        news.lacks_memory = answer == STROKES_NO_MEMORY;
        if (!news.lacks_memory) want_ok(answer);
        return news;
    }
    static std::uint32_t milliseconds(std::chrono::milliseconds limit) {
        return limit.count() < 0 ? 0 : limit.count() < STROKES_CREW_NO_LIMIT ? static_cast<std::uint32_t>(limit.count()) : STROKES_CREW_NO_LIMIT;
    }
    std::unique_ptr<std::function<void()>> news_; // (before the handle, so that it is there until that is closed)
    Handle<strokes_crew, strokes_crew_close> handle_;
};

} // namespace strokes

#endif
