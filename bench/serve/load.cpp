// A client that times a venue over TCP. load PORT NAME SYMBOL MESSAGES at-once|for-a-second|one-by-one|hold RUN logs
// NAME on at 127.0.0.1:PORT by a Logon that resets the sequence numbers, prints "ready", and waits until its standard
// input ends, so that many begin together. It sends MESSAGES messages, alternately an order for SYMBOL and its cancel,
// and counts the answers (one ExecutionReport or OrderCancelReject each).
//   at-once        all messages as fast as the socket takes them: the throughput up to the last answer
//   for-a-second   the same, up to the last answer or for a second
//   one-by-one     each message after the answer to the previous one: the round trips
//   hold           nothing: the connection is held until the program is ended
// RUN is put into the identifiers, which a venue takes once a day. Prints one line of words and numbers;
// processor_us is the client's own processor time from the first message on.
#include "../fix_client.h"
#include <cmath>
#include <fcntl.h>
#include <vector>

using namespace fix;

namespace {

// the messages for a second that wait for their answers
constexpr long MOST_UNANSWERED = 4'096;

struct Client : Session {
    std::string symbol, run;

    // The k-th message: an order to buy, or the cancel of the previous one.
    std::string message(long k) const {
        std::string id = "|11=r" + run + "n" + std::to_string(k);
        std::string order = "|55=" + symbol + "|54=1";
        if (k % 2 == 0) return frame(header("D", k + 2) + id.substr(1) + order + "|38=10|40=2|44=2.5|60=" + at + "|");
        std::string previous = "|41=r" + run + "n" + std::to_string(k - 1);
        return frame(header("F", k + 2) + id.substr(1) + previous + order + "|60=" + at + "|");
    }

    // The messages a second that were answered up to the last one, or within these seconds. At most this many wait for
    // their answers. (All are made before the clock starts, so that the client takes little processor time.)
    double at_once(long messages, double most_seconds, long most_unanswered, long &answers) {
        std::string text;
        std::vector<size_t> ends;
        for (long k = 0; k < messages; k++) ends.push_back((text += message(k)).size());
        fcntl(socket, F_SETFL, O_NONBLOCK);
        await_start();
        double begun = now(), rate = 0;
        size_t sent = 0;
        for (long whole = 0, last = messages; answers < last;) {
            if (!rate && now() > begun + most_seconds) {
                rate = answers / (now() - begun);
                last = whole;
                continue;
            }
            size_t up_to = ends[std::min(last, answers + most_unanswered) - 1];
            short events = ready(sent < up_to);
            if (events & (POLLIN | POLLHUP | POLLERR)) answers += received("89");
            if (events & POLLOUT) {
                sent += std::max<ssize_t>(write(socket, &text[sent], std::min<size_t>(up_to - sent, 65536)), 0);
                while (whole < last && ends[whole] <= sent) whole++;
            }
        }
        return rate ? rate : answers / (now() - begun);
    }

    std::vector<double> one_by_one(long messages, long &answers) {
        std::vector<double> trips;
        await_start();
        for (long k = 0; k < messages; k++) {
            std::string text = message(k);
            double begun = now();
            send_all(text);
            for (long before = answers; answers == before;) {
                ready(false);
                answers += received("89");
            }
            trips.push_back(now() - begun);
        }
        std::sort(trips.begin(), trips.end());
        return trips;
    }
};

} // namespace

int main(int count, char **words) {
    if (count != 7) {
        fprintf(stderr, "load PORT NAME SYMBOL MESSAGES at-once|for-a-second|one-by-one|hold RUN\n");
        return 2;
    }
    try {
        Client client{{words[2]}, words[3], words[6]};
        long messages = std::stol(words[4]), answers = 0;
        client.connect_to(std::stoi(words[1]));
        client.log_on();
        if (!strcmp(words[5], "hold")) pause();
        bool is_limited = !strcmp(words[5], "for-a-second");
        if (is_limited || !strcmp(words[5], "at-once")) {
            double rate = is_limited ? client.at_once(messages, 1.0, MOST_UNANSWERED, answers)
                                     : client.at_once(messages, HUGE_VAL, messages, answers);
            double cost = (spent() - client.spent_before) * 1e6;
            printf("messages %ld answers %ld per_second %.0f processor_us %.0f\n", messages, answers, rate, cost);
        } else {
            std::vector<double> trips = client.one_by_one(messages, answers);
            double p50 = trips[messages / 2] * 1e6, p99 = trips[messages * 99 / 100] * 1e6;
            printf("messages %ld answers %ld p50_us %.0f p99_us %.0f\n", messages, answers, p50, p99);
        }
        return 0;
    } catch (const std::exception &fault) {
        fprintf(stderr, "load: %s\n", fault.what());
        return 1;
    }
}
