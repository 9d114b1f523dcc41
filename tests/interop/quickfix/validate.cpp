// validate TRANSPORT.xml APPLICATION.xml [refused] < LINES
//
// Has QuickFIX read two data dictionaries, and validate messages by them. A line is a frame, or a body, which is
// put into one (with a header, where it has none); `|` is SOH. Each has to be accepted as it is, and refused with
// one field more that no table of its type names; with the word `refused` each has to be refused, and the reason is
// printed. The status is 1 where one is not.
#include <quickfix/DataDictionary.h>
#include <quickfix/Message.h>

#include <cstdio>
#include <exception>
#include <iostream>
#include <map>
#include <string>

using FIX::DataDictionary;

// The frame of a body.
static std::string framed(const std::string &body) {
    std::string frame = "8=FIXT.1.1\0019=" + std::to_string(body.size()) + "\001" + body;
    unsigned sum = 0;
    for (unsigned char byte : frame) sum += byte;
    char trailer[16];
    std::snprintf(trailer, sizeof trailer, "10=%03u\001", sum % 256);
    return frame + trailer;
}

// A body with a header.
static std::string headed(const std::string &body) {
    if (body.find("\00149=") != std::string::npos) return body;
    size_t type_end = body.find('\001') + 1;
    return body.substr(0, type_end) + "49=ALPHA\00156=SEF\00134=2\00152=20250303-14:30:00.000\001" + body.substr(type_end);
}

// The body of a frame.
static std::string body_of(const std::string &frame) {
    size_t length_end = frame.find('\001', frame.find("\0019=") + 1);
    return frame.substr(length_end + 1, frame.rfind("\00110=") - length_end);
}

// Why the engine refuses a frame; empty where it does not.
static std::string refusal(const std::string &frame, const DataDictionary &transport, const DataDictionary &application) {
    try {
        FIX::Message message;
        message.setString(frame, true, &transport, &application);
        if (message.isAdmin())
            transport.validate(message);
        else
            DataDictionary::validate(message, &transport, &application);
        return "";
    } catch (std::exception &fault) {
        return fault.what();
    }
}

static std::string shown(std::string text) {
    for (char &byte : text)
        if (byte == '\001') byte = '|';
    return text;
}

int main(int count, char **words) {
    if (count != 3 && count != 4) {
        std::cerr << "validate TRANSPORT.xml APPLICATION.xml [refused] < LINES" << std::endl;
        return 2;
    }
    bool all_refused = count == 4;
    DataDictionary transport(words[1]), application(words[2]);
    for (DataDictionary *dictionary : {&transport, &application}) {
        dictionary->checkFieldsOutOfOrder(true);
        dictionary->checkFieldsHaveValues(true);
        dictionary->checkUserDefinedFields(true);
    }
    std::map<std::string, int> accepted;
    int faults = 0;
    std::string line;
    while (std::getline(std::cin, line)) {
        if (line.empty()) continue;
        for (char &byte : line)
            if (byte == '|') byte = '\001';
        std::string frame = line.compare(0, 2, "8=") == 0 ? line : framed(headed(line));
        std::string why = refusal(frame, transport, application);
        if (all_refused) {
            faults += why.empty();
            std::cout << (why.empty() ? "not refused" : why) << ": " << shown(line) << std::endl;
            continue;
        }
        if (!why.empty()) {
            faults++;
            std::cout << "refused: " << shown(frame) << " " << why << std::endl;
        }
        // AvgPx, which engines expect in an ExecutionReport of FIX 4.4; no table of the venue has it.
        if (refusal(framed(body_of(frame) + "6=1\001"), transport, application).empty()) {
            faults++;
            std::cout << "accepted with 6: " << shown(frame) << std::endl;
        }
        FIX::Message message;
        message.setString(frame, false, &transport, &application);
        accepted[message.getHeader().getField(35)]++;
    }
    for (const auto &type : accepted) std::cout << "35=" << type.first << ": " << type.second << std::endl;
    return faults == 0 && (all_refused || !accepted.empty()) ? 0 : 1;
}
