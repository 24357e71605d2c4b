// Tables in vectors; the data of an empty one is often a null pointer.
#include "dimpsyholt.h"

#include <cstdio>
#include <vector>

int main() {
    const std::vector<int32_t> model = {3, 1, 2, 1, 2, 1, 2, 1, 2, 3, 0, 1, 2};
    const std::vector<int32_t> log = {1, 0, 3, 0, 2, 1, 1, 2, 1, 2, 2, 1, 0, 2, 0, 0, 1, 0, 3, 1};
    const std::vector<int32_t> empty;
    std::vector<uint32_t> places(DIMPSYHOLT_PLACES);
    const auto ask = [&](const std::vector<int32_t> &m, const std::vector<int32_t> &l) {
        const dimpsyholt_answer a = dimpsyholt_check(m.data(), m.size(), l.data(), l.size(), places.data(), places.size());
        const char *text = dimpsyholt_refusal_text(a.number);
        std::printf("kind %u, number %u: %s\n", unsigned(a.kind), unsigned(a.number), text ? text : "accepted");
    };
    ask(model, log);
    ask(model, empty);
    ask(empty, log);
    places.clear();
    places.shrink_to_fit();
    ask(model, log);
}
