// A life of random calls. Whoever runs it may be killed at any instruction.
#ifndef RANDOM_LIFE_HPP
#define RANDOM_LIFE_HPP

#include "rig.hpp"

#include <random>

inline void random_life(const Client &c, std::mt19937 &rng, int calls) {
    std::vector<Token> tokens;
    std::vector<Collection> collections;
    std::vector<Handle> handles;
    std::vector<Tracker> trackers;
    auto pick = [&](std::size_t n) { return std::size_t(rng() % n); };
    auto keep = [&](auto &list, auto made) {
        if (made) list.push_back(std::move(*made));
    };
    for (int i = 0; i < calls; i++) {
        unsigned what = rng() % 20;
        if (tokens.empty() && collections.empty()) what = 0;
        if (what == 0 || (what < 3 && tokens.empty())) keep(tokens, c.open_root("r"));
        else if (what < 3) keep(tokens, tokens[pick(tokens.size())].duplicate("k"));
        else if (what < 7 && !tokens.empty()) {
            std::size_t at = pick(tokens.size());
            if (rng() % 4 == 0) (void)tokens[at].set_dispensable();
            if (rng() % 6 == 0) (void)tokens[at].set_weak();
            auto bound = std::move(tokens[at]).bind();
            if (bound) {
                (void)bound->set_constraints({std::uint8_t(rng() % 3), std::uint8_t(rng() % 4), 1 + std::uint32_t(rng() % 9000)});
                collections.push_back(std::move(*bound));
            }
            tokens.erase(tokens.begin() + std::ptrdiff_t(at));
        } else if (what < 11 && !collections.empty()) {
            auto got = collections[pick(collections.size())].take();
            if (got && *got)
                for (Handle &h : **got) handles.push_back(std::move(h));
        } else if (what == 11 && !collections.empty()) {
            keep(tokens, collections[pick(collections.size())].attach_token("a"));
        } else if (what == 12 && !collections.empty()) {
            std::size_t at = pick(collections.size());
            keep(trackers, rng() % 2 ? collections[at].track_node() : collections[at].track_lifetime(std::uint32_t(rng() % 3)));
        } else if (what == 13 && !collections.empty()) {
            std::size_t at = pick(collections.size());
            if (rng() % 3) (void)std::move(collections[at]).release();
            collections.erase(collections.begin() + std::ptrdiff_t(at));
        } else if (what == 14 && !tokens.empty()) {
            std::size_t at = pick(tokens.size());
            if (rng() % 3) (void)std::move(tokens[at]).release();
            tokens.erase(tokens.begin() + std::ptrdiff_t(at));
        } else if (what < 18 && !handles.empty()) {
            std::size_t at = pick(handles.size());
            if (what == 15) keep(handles, handles[at].duplicate());
            else if (what == 16) (void)handles[at].track_weak();
            else if (rng() % 2) (void)handles[at].on_idle(std::uint32_t(rng() % 3));
            else handles.erase(handles.begin() + std::ptrdiff_t(at));
        } else if (!handles.empty()) {
            Bytes b = handles[pick(handles.size())].bytes();
            if (!b.empty()) b[pick(b.size())] = std::byte(1);
        }
        while (handles.size() > 100) handles.pop_back();
        while (trackers.size() > 20) trackers.pop_back();
    }
}

#endif
