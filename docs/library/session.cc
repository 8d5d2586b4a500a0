// A session in C++: a count in processor 0, its turns with what they overwrote, and the way back.
#include <pp6600.h>

#include <cstdint>
#include <cstdio>
#include <iostream>
#include <stdexcept>
#include <string>
#include <vector>

class Session {
public:
    Session() {
        uint8_t line[112];
        size_t count;
        uint32_t status;
        if (pp6600_open(10000, 131072, 10, 11, line, 0, line, 0, &session, line, sizeof line, &count, &status) != PP6600_DONE)
            throw std::runtime_error(std::string(line, line + count));
    }
    ~Session() { pp6600_close(&session); }
    Session(const Session &) = delete;
    Session &operator=(const Session &) = delete;

    std::string answer(const std::string &lines) {
        std::vector<uint8_t> typed(lines.begin(), lines.end()), into(4096);
        size_t taken, count;
        uint32_t performed, refused;
        pp6600_answer(&session, typed.data(), typed.size(), into.data(), into.size(), &taken, &count, &performed, &refused);
        return std::string(into.begin(), into.begin() + static_cast<std::ptrdiff_t>(count));
    }

    pp6600 session = {nullptr};
};

int main() {
    Session machine;
    std::cout << machine.answer("SET M 0 100 3410 0376\nSET P 0 100\nSTEP 50\nDUMP PP 0\n");

    std::vector<pp6600_turn> made(10);
    std::vector<pp6600_old> olds(76 * made.size());
    size_t turns, used;
    pp6600_turns(&machine.session, 10, made.data(), made.size(), olds.data(), olds.size(), &turns, &used);
    const pp6600_old *old = olds.data();
    for (size_t turn = 0; turn < turns; turn++)
        for (uint32_t i = 0; i < made[turn].count; i++, old++)
            std::cout << "processor " << made[turn].processor << ": place " << old->place << " was " << std::oct << old->number << std::dec << '\n';

    uint64_t p;
    pp6600_back(&machine.session, 10);
    pp6600_numbers(&machine.session, PP6600_P, &p, 1);
    std::cout.flush();
    std::printf("P of processor 0 is %04llo\n", static_cast<unsigned long long>(p));
}
