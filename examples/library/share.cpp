/* Ten things that move, shared over UDP at 20 packets a second: a server and its clients, in C++17. It is the twin of share.c, which says
   what each side does, and each plays with the other.

       c++ -std=c++17 -O2 share.cpp $(pkg-config --cflags --libs tribes) -o share
       share serve PORT TURNS LOSS          share join PORT NUMBER TURNS LOSS */
#include "tribes.hpp"
#include <algorithm>
#include <arpa/inet.h>
#include <chrono>
#include <cstdio>
#include <cstdlib>
#include <map>
#include <string>
#include <sys/socket.h>
#include <thread>
#include <unistd.h>

namespace {

constexpr int things_count = 10;
constexpr std::int64_t edge = 65535;
constexpr std::uint8_t hello = 2, welcome = 3;
// a move: throttle, yaw and buttons side by side, 22 bits
constexpr std::array<std::uint32_t, 3> widths{3, 11, 8};
constexpr std::uint64_t fires = 1;

using datagram = std::array<std::uint8_t, TRIBES_MAX_DATAGRAM>;
using steady = std::chrono::steady_clock;

tribes::kinds game_kinds() {
    tribes::kinds kinds;
    kinds.add(8, {{0, edge, 16}, {0, edge, 16}, {0, things_count - 1, 4}});
    return kinds;
}

tribes::config config_of(std::uint32_t client) { return {client, 1000000, 600, 3, 22}; }

/* What a call gave; where it did nothing, the program ends and says why. */
template <class T> T wanted(const char *what, tribes::result<T> got) {
    if (!got) {
        std::fprintf(stderr, "share: %s: %s (%d)\n", what, got.why().words(), got.why().code);
        std::exit(1);
    }
    return std::move(*got);
}

/* A socket that throws away some of what it would send. */
class wire {
public:
    wire(std::uint16_t port, unsigned loss, unsigned seed) : socket_(socket(AF_INET, SOCK_DGRAM | SOCK_NONBLOCK, 0)), loss_(loss), state_(seed) {
        sockaddr_in at = at_port(port);
        if (socket_ < 0 || bind(socket_, reinterpret_cast<sockaddr *>(&at), sizeof at)) {
            std::perror("share: the port");
            std::exit(1);
        }
    }
    static sockaddr_in at_port(std::uint16_t port) {
        sockaddr_in at{};
        at.sin_family = AF_INET, at.sin_port = htons(port), at.sin_addr.s_addr = htonl(INADDR_LOOPBACK);
        return at;
    }
    void put(const sockaddr_in &to, tribes::bytes some) {
        state_ = state_ * 1664525u + 1013904223u;
        sent++;
        if ((state_ >> 8) % 100 < loss_) lost++;
        else (void)!sendto(socket_, some.data(), some.size(), 0, reinterpret_cast<const sockaddr *>(&to), sizeof to);
    }
    /* The next datagram that came, in that place; none where none waits. */
    std::optional<tribes::bytes> get(sockaddr_in &from, datagram &place) {
        socklen_t size = sizeof from;
        ssize_t count = recvfrom(socket_, place.data(), place.size(), 0, reinterpret_cast<sockaddr *>(&from), &size);
        if (count < 0) return std::nullopt;
        return tribes::bytes(place.data(), static_cast<std::size_t>(count));
    }
    long sent = 0, lost = 0;

private:
    int socket_;
    unsigned loss_, state_;
};

struct thing {
    std::array<std::int64_t, 2> place, way;

    bool move(int axis, std::int64_t to) {
        place[axis] = std::clamp<std::int64_t>(to, 0, edge);
        return place[axis] != to;
    }
    /* It goes where its yaw points, of 2,048 ways round; along a square, so that it needs no sine. */
    void drive(std::int64_t throttle, std::int64_t yaw) {
        static constexpr int sides[5] = {512, 0, -512, 0, 512};
        for (int axis = 0; axis < 2; axis++) {
            int side = static_cast<int>(yaw / 512 + 3 * axis) % 4;
            std::int64_t along = sides[side] + (sides[side + 1] - sides[side]) * (yaw % 512) / 512;
            move(axis, place[axis] + throttle * 100 * along / 512);
        }
    }
};

/* One client: its end, where it is, and for each thing its period. */
struct seat {
    tribes::server end;
    sockaddr_in at;
    std::array<std::uint32_t, things_count> periods{};
    long events = 0, moves = 0, shots = 0, lost = 0;

    /* Takes a datagram; the moves that it brought drive the thing. One that is refused, as an old one, changes nothing. */
    bool take(tribes::bytes came, thing &own) {
        if (!end.arrive(came)) return false;
        while (end.next_event()) events++;
        for (const auto &packet : end.verdicts()) lost += packet.received == 0;
        auto brought = end.moves();
        for (std::uint64_t bits : brought) {
            auto parts = wanted("a move", tribes::take_bits(widths, bits));
            own.drive(static_cast<std::int64_t>(parts[0]), static_cast<std::int64_t>(parts[1]));
            shots += parts[2] & fires;
        }
        moves += brought.size;
        return brought.size > 0;
    }
};

class game {
public:
    game() {
        for (int k = 0; k < things_count; k++) things_[k] = {{5000 + 5500 * k, 3000 + 6000 * k}, {150 + 30 * k, 400 - 35 * k}};
    }
    void hear(wire &wire) {
        datagram place;
        sockaddr_in from;
        while (auto came = wire.get(from, place)) {
            if (came->size() == 2 && (*came)[0] == hello && (*came)[1] < things_count) {
                greet(wire, from, (*came)[1]);
                continue;
            }
            for (auto &[client, seat] : seats_)
                if (seat.at.sin_port == from.sin_port && seat.take(*came, things_[client])) note_moved(client);
        }
    }
    void tick() {
        for (int k = 0; k < things_count; k++) {
            if (seats_.count(k)) continue; // its client drives it
            for (int axis = 0; axis < 2; axis++)
                if (things_[k].move(axis, things_[k].place[axis] + things_[k].way[axis])) things_[k].way[axis] = -things_[k].way[axis];
            note_moved(k);
        }
    }
    /* The next datagram of each client's end: it says which values it wants, and is given them as they are now. */
    void tell(wire &wire, long turn) {
        datagram place;
        for (auto &[client, seat] : seats_) {
            if (turn % 20 == 0) seat.end.post("turn " + std::to_string(turn));
            auto value = [this, &seat = seat](std::uint32_t n, std::uint32_t field) -> std::int64_t {
                auto k = std::find(seat.periods.begin(), seat.periods.end(), n) - seat.periods.begin();
                return field == 2 ? k : things_[k].place[field];
            };
            auto made = wanted("pack", seat.end.pack(place, value));
            if (!made.empty()) wire.put(seat.at, made);
        }
    }
    void print() {
        for (int k = 0; k < things_count; k++) std::printf("thing %d %lld %lld\n", k, static_cast<long long>(things_[k].place[0]), static_cast<long long>(things_[k].place[1]));
        for (auto &[client, seat] : seats_) {
            int settled = 0;
            for (std::uint32_t n : seat.periods)
                for (std::uint32_t f = 0; f < 2; f++) settled += wanted("settled", seat.end.settled(n, f));
            std::printf("client %d: %ld events, %ld moves, %ld shots, %ld packets told as lost, %d of 20 fields settled\n", client, seat.events,
                        seat.moves, seat.shots, seat.lost, settled);
        }
    }

private:
    void greet(wire &wire, const sockaddr_in &from, std::uint8_t client) {
        if (!seats_.count(client)) {
            seat made{wanted("server", tribes::server::make(config_of(client), game_kinds(), {"thing"})), from};
            for (std::uint32_t k = 0; k < things_count; k++) made.periods[k] = wanted("show", made.end.show({0, 0, k % 4, k == client}));
            seats_.emplace(client, std::move(made));
        }
        const std::uint8_t answer[] = {welcome, client};
        wire.put(from, answer);
    }
    void note_moved(int k) {
        for (auto &[client, seat] : seats_)
            if (auto told = seat.end.changed(seat.periods[k], 3); !told) std::fprintf(stderr, "share: changed: %s\n", told.why().words());
    }
    std::array<thing, things_count> things_;
    std::map<int, seat> seats_;
};

void sleep_until_turn(steady::time_point start, long turn) { std::this_thread::sleep_until(start + std::chrono::milliseconds(50) * turn); }

void serve(wire &wire, long turns) {
    game game;
    auto start = steady::now();
    for (long turn = 1; turn <= turns; turn++) {
        game.hear(wire);
        if (turn <= turns - turns / 4) game.tick();
        game.tell(wire, turn);
        sleep_until_turn(start, turn);
    }
    game.print();
}

/* Takes what came at a client, and counts its events. */
long listen_to(wire &wire, tribes::client &end, bool &welcomed) {
    datagram place;
    sockaddr_in from;
    long events = 0;
    while (auto came = wire.get(from, place)) {
        welcomed |= came->size() == 2 && (*came)[0] == welcome;
        if (!end.arrive(*came)) continue; // old, or a welcome: nothing changed
        while (end.next_event()) events++;
    }
    return events;
}

void join(wire &wire, std::uint16_t port, std::uint8_t number, long turns) {
    auto end = wanted("client", tribes::client::make(config_of(number), game_kinds()));
    const sockaddr_in to = wire::at_port(port);
    const std::uint8_t greeting[] = {hello, number};
    auto start = steady::now();
    bool welcomed = false;
    long events = 0, sampled = 0;
    datagram place;
    for (long turn = 1; turn <= turns; turn++) {
        events += listen_to(wire, end, welcomed);
        if (welcomed) {
            const std::array<std::uint64_t, 3> parts{3, static_cast<std::uint64_t>(turn) * 16 % 2048, turn % 40 == 0 ? fires : 0};
            if (turn <= turns / 2) sampled += static_cast<bool>(end.sample(wanted("a move", tribes::put_bits(widths, parts))));
            if (turn % 20 == 0) end.post(tribes::bytes(greeting, 2));
            auto made = wanted("pack", end.pack(place));
            if (!made.empty()) wire.put(to, made);
        } else {
            wire.put(to, greeting);
        }
        sleep_until_turn(start, turn);
    }
    events += listen_to(wire, end, welcomed);
    std::map<std::int64_t, tribes::copy> seen;
    end.each_copy([&seen](const tribes::copy &copy) { seen[copy.values()[2]] = copy; });
    for (const auto &[k, copy] : seen)
        std::printf("thing %lld %lld %lld\n", static_cast<long long>(k), static_cast<long long>(copy.values()[0]), static_cast<long long>(copy.values()[1]));
    std::printf("client %d: %ld events, %ld moves, of which %u are accepted\n", number, events, sampled, end.counts().accepted);
}

} // namespace

int main(int count, char **words) {
    const std::string what = count > 1 ? words[1] : "";
    auto number = [words](int k) { return static_cast<unsigned>(std::strtoul(words[k], nullptr, 10)); };
    if (tribes_version() != TRIBES_VERSION || !((what == "serve" && count == 5) || (what == "join" && count == 6))) {
        std::fprintf(stderr, "share serve PORT TURNS LOSS | share join PORT NUMBER TURNS LOSS\n");
        return 2;
    }
    wire wire = what == "serve" ? ::wire(static_cast<std::uint16_t>(number(2)), number(4), 7) : ::wire(0, number(5), 7 + number(3));
    if (what == "serve") serve(wire, number(3));
    else join(wire, static_cast<std::uint16_t>(number(2)), static_cast<std::uint8_t>(number(3)), number(4));
    std::printf("%ld of %ld datagrams thrown away\n", wire.lost, wire.sent);
}
