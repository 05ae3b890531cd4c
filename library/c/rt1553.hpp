// The calls of rt1553.h for C++17: a terminal that frees itself, texts as std::string_view, faults
// as exceptions. What rt1553.h says about texts, threads and memory holds here too. Exceptions are
// thrown on this side of the calls, never through them.
#ifndef RT1553_HPP
#define RT1553_HPP

#include "rt1553.h"

#include <cstddef>
#include <cstdint>
#include <memory>
#include <new>
#include <optional>
#include <stdexcept>
#include <string>
#include <string_view>
#include <utility>

namespace rt1553 {

enum class bus : std::uint8_t { a = RT1553_BUS_A, b = RT1553_BUS_B };
enum class sync : std::uint8_t { command = RT1553_COMMAND_SYNC, data = RT1553_DATA_SYNC };
enum class flag : std::uint8_t {
    service = RT1553_SERVICE_REQUEST,
    busy = RT1553_BUSY,
    subsystem = RT1553_SUBSYSTEM_FLAG,
    terminal = RT1553_TERMINAL_FLAG
};

// A text or a saved state is refused, for its first fault. `kind`, `number` and `line` are as in rt1553_fault.
struct refused : std::runtime_error {
    explicit refused(const rt1553_fault &fault)
        : std::runtime_error(without_line_feed(fault)), kind(fault.kind), number(fault.number), line(fault.line) {}

    std::uint8_t kind;
    std::uint8_t number;
    std::uint64_t line;

  private:
    static std::string without_line_feed(const rt1553_fault &fault) {
        std::string text(fault.text, fault.length);
        if (!text.empty() && text.back() == '\n')
            text.pop_back();
        return text;
    }
};

// A view of words that are stored elsewhere.
class words_view {
  public:
    words_view(const std::uint16_t *first, std::size_t size) : first_(first), size_(size) {}
    const std::uint16_t *begin() const { return first_; }
    const std::uint16_t *end() const { return first_ + size_; }
    const std::uint16_t *data() const { return first_; }
    std::size_t size() const { return size_; }
    bool empty() const { return size_ == 0; }
    std::uint16_t operator[](std::size_t at) const { return first_[at]; }

  private:
    const std::uint16_t *first_;
    std::size_t size_;
};

// The answer to an event, in the terminal itself. Read it before the terminal's next event, and
// before another terminal is assigned to it.
class answer_view {
  public:
    explicit answer_view(const rt1553_answer &answer) : answer_(&answer) {}
    // RT1553_SILENT, RT1553_SENDS_STATUS, ..
    std::uint8_t what() const { return answer_->what; }
    // whether there is an answer
    explicit operator bool() const { return what() != RT1553_SILENT; }
    // whether a word is sent; then `on`, `kind` and `bits` are its bus, its sync and its bits
    bool sends() const { return what() == RT1553_SENDS_STATUS || what() == RT1553_SENDS_DATA; }
    bus on() const { return static_cast<bus>(answer_->bus); }
    sync kind() const { return what() == RT1553_SENDS_STATUS ? sync::command : sync::data; }
    // if a word is sent, or for synchronize with a word
    std::uint16_t bits() const { return answer_->bits; }
    // if words were received
    bool broadcast() const { return answer_->broadcast; }
    std::uint8_t subaddress() const { return answer_->subaddress; }
    words_view words() const { return {answer_->words, what() == RT1553_HANDS_RECEIVED ? answer_->count : std::size_t{0}}; }

  private:
    const rt1553_answer *answer_;
};

namespace detail {

// an empty view may be null, but no pointer that is passed on may be
inline const std::uint8_t *at(std::string_view text) {
    return reinterpret_cast<const std::uint8_t *>(text.empty() ? "" : text.data());
}
inline std::uint8_t *at(std::string &text) { return reinterpret_cast<std::uint8_t *>(text.data()); }

// throws if a call was not done
inline std::uint8_t done(std::uint8_t status, const rt1553_fault &fault) {
    switch (status) {
    case RT1553_REFUSED:
        throw refused(fault);
    case RT1553_NO_MEMORY:
        throw std::bad_alloc();
    case RT1553_NO_ROOM:
        throw std::length_error("rt1553: no room");
    default:
        return status;
    }
}

// what a call of rt1553.h makes of these arguments
template <typename T, typename C, typename... As> T *made(C call, As... arguments) {
    T *it = nullptr;
    rt1553_fault fault;
    done(call(arguments..., &it, &fault), fault);
    return it;
}

struct frees {
    void operator()(rt1553_terminal *terminal) const { rt1553_terminal_free(terminal); }
    void operator()(rt1553_bus *bus) const { rt1553_bus_free(bus); }
};

} // namespace detail

inline rt1553_versions version() {
    rt1553_versions versions;
    rt1553_version(&versions);
    return versions;
}

// Throws refused if the text is not accepted.
inline void check(std::string_view text) {
    rt1553_fault fault;
    detail::done(rt1553_check(detail::at(text), text.size(), &fault), fault);
}

// The canonical text of a text.
inline std::string canonical(std::string_view text) {
    std::string to(RT1553_CANONICAL_ROOM, '\0');
    std::size_t length = 0;
    rt1553_fault fault;
    detail::done(rt1553_canonical(detail::at(text), text.size(), detail::at(to), to.size(), &length, &fault), fault);
    to.resize(length);
    return to;
}

// Nothing if two texts mean the same terminal, else a script that the two answer differently.
inline std::optional<std::string> compare(std::string_view first, std::string_view second) {
    std::string to(RT1553_SCRIPT_ROOM, '\0');
    std::size_t length = 0;
    rt1553_fault fault;
    std::uint8_t status = rt1553_compare(detail::at(first), first.size(), detail::at(second), second.size(), detail::at(to),
                                         to.size(), &length, &fault);
    if (detail::done(status, fault) == RT1553_DONE)
        return std::nullopt;
    to.resize(length);
    return to;
}

// The transcript, of at most `room` bytes, of a script played to the terminal of a text from
// power-up.
inline std::string run(std::string_view text, std::string_view script, std::size_t room) {
    std::string to(room, '\0');
    std::size_t length = 0;
    rt1553_fault fault;
    detail::done(rt1553_run(detail::at(text), text.size(), detail::at(script), script.size(), detail::at(to), to.size(),
                            &length, &fault),
                 fault);
    to.resize(length);
    return to;
}

// A remote terminal, from power-up. One thread at a time may use it. A copy answers every further
// event as the other does, and neither knows of the other. A terminal that was moved from may be
// assigned to, copied or destroyed, and nothing else; a copy of it is such a terminal too.
class terminal {
  public:
    explicit terminal(std::string_view text) : terminal_(made_by(rt1553_terminal_new, detail::at(text), text.size())) {}

    // A terminal in a saved state. Throws refused if the bytes are none.
    static terminal restore(std::string_view state) {
        return terminal(made_by(rt1553_terminal_restore, detail::at(state), state.size()));
    }

    terminal(const terminal &other) : terminal_(other.terminal_ ? made_by(rt1553_terminal_copy, other.terminal_.get()) : nullptr) {}
    terminal(terminal &&) noexcept = default;
    // This terminal stays as it was if there is no memory for the other.
    terminal &operator=(const terminal &other) {
        if (this != &other)
            *this = terminal(other);
        return *this;
    }
    terminal &operator=(terminal &&) noexcept = default;
    ~terminal() = default;

    // Its saved state, by which `restore` makes a terminal that answers every further event alike.
    std::string save() const {
        std::string to(RT1553_STATE_ROOM, '\0');
        std::size_t length = 0;
        rt1553_fault fault;
        detail::done(rt1553_terminal_save(terminal_.get(), detail::at(to), to.size(), &length, &fault), fault);
        to.resize(length);
        return to;
    }

    // Plays an event. Throws std::invalid_argument if its numbers mean none; then nothing changes.
    answer_view play(const rt1553_event &event) { return answered(rt1553_play(terminal_.get(), event)); }
    answer_view word(bus on, sync kind, std::uint16_t bits) {
        return answered(rt1553_word(terminal_.get(), number(on), number(kind), bits));
    }
    answer_view noise(bus on) { return answered(rt1553_noise(terminal_.get(), number(on))); }
    answer_view gap(bus on) { return answered(rt1553_gap(terminal_.get(), number(on))); }
    answer_view slot() { return answered(rt1553_slot(terminal_.get())); }
    void write(std::uint8_t subaddress, std::uint8_t word, std::uint16_t bits) {
        answered(rt1553_write(terminal_.get(), subaddress, word, bits));
    }
    void vector(std::uint16_t bits) { answered(rt1553_vector(terminal_.get(), bits)); }
    void bit(std::uint16_t bits) { answered(rt1553_bit(terminal_.get(), bits)); }
    void set(flag which, bool value) { answered(rt1553_flag(terminal_.get(), number(which), value)); }

  private:
    template <typename E> static std::uint8_t number(E name) { return static_cast<std::uint8_t>(name); }

    answer_view answered(std::uint8_t status) const {
        if (status != RT1553_DONE)
            throw std::invalid_argument("rt1553: no such event");
        return answer_view(terminal_->answer);
    }

    friend class terminal_bus;
    using owner = std::unique_ptr<rt1553_terminal, detail::frees>;

    explicit terminal(owner made) : terminal_(std::move(made)) {}

    template <typename C, typename... As> static owner made_by(C call, As... arguments) {
        return owner(detail::made<rt1553_terminal>(call, arguments...));
    }

    owner terminal_;
};

// A bus with up to 31 terminals of different addresses, which are stepped together. One thread at a time
// may use it. A copy answers every further event as the other does, and neither knows of the other. A bus
// that was moved from may be assigned to, copied or destroyed, and nothing else.
class terminal_bus {
  public:
    terminal_bus() : bus_(detail::made<rt1553_bus>(rt1553_bus_new)) {}
    terminal_bus(const terminal_bus &other) : bus_(other.bus_ ? detail::made<rt1553_bus>(rt1553_bus_copy, other.bus_.get()) : nullptr) {}
    terminal_bus(terminal_bus &&) noexcept = default;
    // This bus stays as it was if there is no memory for the other.
    terminal_bus &operator=(const terminal_bus &other) {
        if (this != &other)
            *this = terminal_bus(other);
        return *this;
    }
    terminal_bus &operator=(terminal_bus &&) noexcept = default;
    ~terminal_bus() = default;

    // A copy of the terminal joins, in the state in which it is. Throws std::invalid_argument if a
    // terminal of the bus has its address; then nothing changes.
    void join(const terminal &it) {
        if (rt1553_bus_join(bus_.get(), it.terminal_.get()) != RT1553_DONE)
            throw std::invalid_argument("rt1553: a terminal of the bus has this address");
    }

    // Plays an event, for all or for the terminal with an address. Throws std::invalid_argument if this
    // means nothing that can happen; then nothing changes.
    void play(const rt1553_event &event, std::uint8_t to = RT1553_FOR_ALL) { played(rt1553_bus_play(bus_.get(), to, event)); }

    // How many terminals sent or handed over something, and each: its address, and what. Read an answer
    // before the next event.
    std::size_t size() const { return bus_->count; }
    std::uint8_t address(std::size_t at) const { return bus_->answers[at].address; }
    answer_view answer(std::size_t at) const { return answer_view(bus_->answers[at].answer); }
    bool collided(bus on) const { return on == bus::a ? bus_->collided_a : bus_->collided_b; }

    // A terminal that goes on as one of the bus does, which stays; its place is the number of those that
    // joined before it. Throws std::out_of_range if the bus has no terminal there.
    terminal at(std::size_t place) const {
        rt1553_terminal *it = nullptr;
        rt1553_fault fault;
        std::uint8_t status = rt1553_bus_terminal(bus_.get(), place, &it, &fault);
        if (status == RT1553_REFUSED)
            throw std::out_of_range("rt1553: the bus has no terminal at this place");
        detail::done(status, fault);
        return terminal(terminal::owner(it));
    }

    // Its saved state, by which `restore` makes a bus whose terminals answer every further event alike.
    std::string save() const {
        std::string to(RT1553_BUS_STATE_ROOM, '\0');
        std::size_t length = 0;
        rt1553_fault fault;
        detail::done(rt1553_bus_save(bus_.get(), detail::at(to), to.size(), &length, &fault), fault);
        to.resize(length);
        return to;
    }

    // A bus in a saved state. Throws refused if the bytes are none.
    static terminal_bus restore(std::string_view state) {
        return terminal_bus(owner(detail::made<rt1553_bus>(rt1553_bus_restore, detail::at(state), state.size())));
    }

    // Plays a whole message, as rt1553_bus_message does. Throws std::invalid_argument if that refuses an event.
    rt1553_message message(const rt1553_event *words, std::size_t count) {
        rt1553_message came;
        played(rt1553_bus_message(bus_.get(), words, count, &came));
        return came;
    }

  private:
    using owner = std::unique_ptr<rt1553_bus, detail::frees>;

    explicit terminal_bus(owner made) : bus_(std::move(made)) {}

    static void played(std::uint8_t status) {
        if (status != RT1553_DONE)
            throw std::invalid_argument("rt1553: no such event");
    }

    owner bus_;
};

} // namespace rt1553

#endif
