// The words of player.c by rt1553.hpp.
#include "rt1553.hpp"
#include "script_line.h"

#include <algorithm>
#include <fstream>
#include <iostream>
#include <iterator>
#include <sstream>

namespace {

std::string read_file(const std::string &name) {
    std::ifstream file(name, std::ios::binary);
    return {std::istreambuf_iterator<char>(file), std::istreambuf_iterator<char>()};
}

std::string line_of(const rt1553::answer_view &answer) {
    rt1553_answer plain{};
    plain.what = answer.what();
    plain.bus = static_cast<uint8_t>(answer.on());
    plain.bits = answer.bits();
    plain.broadcast = answer.broadcast();
    plain.subaddress = answer.subaddress();
    plain.count = static_cast<uint8_t>(answer.words().size());
    std::copy(answer.words().begin(), answer.words().end(), plain.words);
    char line[LINE_ROOM];
    return {line, write_answer(&plain, line)};
}

// the transcript of the lines from a byte on, up to the first that is none of a script
std::string play(rt1553::terminal &terminal, const std::string &script, std::size_t at = 0) {
    std::string transcript;
    while (at < script.size()) {
        std::string line = script.substr(at, std::min(script.find('\n', at), script.size()) - at);
        at += line.size() + 1;
        if (line.empty() || (line[0] == '#' && line.size() <= LONGEST_LINE))
            continue;
        rt1553_event event;
        if (line.size() > LONGEST_LINE || line.find('\0') != line.npos || !read_event(line.c_str(), &event))
            break;
        try {
            transcript += line_of(terminal.play(event));
        } catch (const std::invalid_argument &) {
            break;
        }
    }
    return transcript;
}

int run(const std::string &profile, const std::string &script) {
    std::string transcript(LINE_ROOM * (1 + static_cast<std::size_t>(std::count(script.begin(), script.end(), '\n'))), '\0');
    rt1553::check(profile);
    std::size_t length = 0;
    rt1553_fault fault;
    auto bytes = [](const std::string &text) { return reinterpret_cast<const uint8_t *>(text.data()); };
    // the call of rt1553.h, since what was written before a fault is wanted too
    int status = rt1553_run(bytes(profile), profile.size(), bytes(script), script.size(),
                            reinterpret_cast<uint8_t *>(transcript.data()), transcript.size(), &length, &fault);
    transcript.resize(length);
    std::cout << transcript;
    if (status == RT1553_REFUSED)
        std::cerr << fault.text;
    if (status == RT1553_DONE && rt1553::run(profile, script, transcript.size()) != transcript)
        return 9;
    rt1553::terminal terminal(profile);
    return play(terminal, script) == transcript ? status : 9;
}

// a line of CUTS, with the script that it names
struct cut {
    std::string name;
    std::size_t lines;

    std::string state() const { return name + '-' + std::to_string(lines) + ".state"; }
    std::string script() const { return read_file(name + ".script"); }
    // how many bytes the lines have
    std::size_t size() const {
        std::string all = script();
        std::size_t at = 0;
        for (std::size_t line = 0; line < lines; line++)
            at = all.find('\n', at) + 1;
        return at;
    }
};

void save(const cut &at) {
    rt1553::terminal terminal(read_file(at.name + ".toml"));
    play(terminal, at.script().substr(0, at.size()));
    std::ofstream(at.state(), std::ios::binary) << terminal.save();
}

void resume(const cut &at) {
    rt1553::terminal terminal = rt1553::terminal::restore(read_file(at.state()));
    std::cout << at.name << ' ' << at.lines << '\n' << play(terminal, at.script(), at.size());
}

int at_each(const std::string &cuts, void (*call)(const cut &)) {
    std::istringstream lines(cuts);
    for (cut at; lines >> at.name >> at.lines;)
        call(at);
    return 0;
}

int work(const std::string &word, const std::string &first, const std::string &second) {
    if (word == "run")
        return run(first, second);
    if (word == "save" || word == "resume")
        return at_each(first, word == "save" ? save : resume);
    if (word == "check") {
        rt1553::check(first);
        std::cout << "ok\n";
    } else if (word == "canon") {
        std::cout << rt1553::canonical(first);
    } else {
        auto script = rt1553::compare(first, second);
        std::cout << script.value_or("same\n");
        return script ? 1 : 0;
    }
    return 0;
}

} // namespace

int main(int count, char **words) {
    try {
        return work(words[1], read_file(words[2]), count > 3 ? read_file(words[3]) : "");
    } catch (const rt1553::refused &fault) {
        std::cerr << fault.what() << '\n';
        return 2;
    }
}
