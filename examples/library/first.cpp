/* Two ends, an object and an event, in C++17: docs/library.md, "The same ten lines". */
#include "tribes.hpp"
#include <cstdio>

int main() {
    const tribes::config config{0, 1000000, 600, 3, 22};
    const std::array<std::int64_t, 2> tank{1200, 80};
    std::array<std::uint8_t, TRIBES_MAX_DATAGRAM> bytes;
    tribes::kinds kinds;

    kinds.add(8, {{0, 65535, 16}, {0, 100, 7}});
    auto server = tribes::server::make(config, kinds, {"tank"});
    auto client = tribes::client::make(config, kinds);
    if (!server || !client || !server->show({0, 0, 0, 1}) || !server->post("welcome")) return 1;
    for (int turn = 0; turn < 3; turn++) {
        if (auto made = server->pack(bytes, [&](auto, auto field) { return tank[field]; })) client->arrive(*made);
        while (auto event = client->next_event()) std::printf("event %.*s\n", static_cast<int>(event->size), event->text().data());
        if (auto made = client->pack(bytes)) server->arrive(*made);
    }
    client->each_copy([](const tribes::copy &copy) { std::printf("copy %d %d\n", int(copy.values()[0]), int(copy.values()[1])); });
}
