// Writes the transcript of a crowd: the clients of one thread, four at a time, that make what calls they
// like, give each other what they have, and vanish. Played again, its lines have to give its replies. With a
// second number it writes the last so many events.
#include "life.hpp"

int main(int count, char **words) {
    int steps = count > 1 ? std::atoi(words[1]) : 3000;
    Options options;
    options.pages = 256;
    options.transcript = true;
    LastEvents last = record_last(count > 2 ? std::size_t(std::atoi(words[2])) : 7);
    options.record = last;
    Service service = Service::open(options).value();
    std::mt19937 dice(44);
    {
        std::vector<std::unique_ptr<Life>> lives(4);
        for (int i = 0; i < steps; i++) {
            std::unique_ptr<Life> &life = lives[dice() % 4];
            if (!life) life = begin(service, dice);
            if (dice() % 50 != 0) {
                life->step();
                continue;
            }
            life->end();
            life.reset();
        }
        for (auto &life : lives)
            if (life) life->end();
    }
    std::string all = service.transcript(), some = last.text(), tail = some.substr(some.find('\n') + 1);
    std::fputs((count > 2 ? some : all).c_str(), stdout);
    bool is_tail = all.size() > tail.size() && all.compare(all.size() - tail.size(), tail.npos, tail) == 0;
    return is_tail && is_nothing_left(service, options.pages) ? 0 : 1;
}
