// The same in C++: a wrapper of the C functions that throws refusals, and a program over it.
//
//     edi4_host FILE
//
// Prints the report and, if the file is accepted, its total in DKK. The exit status is 0 if the file
// is accepted, 1 if it is refused, 2 if it cannot be read.
#include "edi4.h"

#include <fstream>
#include <iomanip>
#include <iostream>
#include <iterator>
#include <stdexcept>
#include <string>
#include <vector>

namespace {

// A refusal with its place.
struct Refusal : std::runtime_error {
    explicit Refusal(const edi4_answer &a)
        : std::runtime_error("number " + std::to_string(a.number) + " layer " + std::to_string(a.layer) +
                             " line " + std::to_string(a.line) + " field " + std::to_string(a.field) +
                             " byte " + std::to_string(a.byte)),
          answer(a)
    {
    }

    edi4_answer answer;
};

// The pointer of a text, which is never null.
const uint8_t *bytes_of(const std::string &text)
{
    return reinterpret_cast<const uint8_t *>(text.c_str());
}

std::uint64_t accepted(const edi4_answer &answer)
{
    if (answer.number != 0)
        throw Refusal(answer);
    return answer.value;
}

std::uint64_t total(const std::string &file, const std::string &currency)
{
    return accepted(edi4_total(bytes_of(file), file.size(), bytes_of(currency), currency.size()));
}

std::string report(const std::string &file)
{
    std::vector<uint8_t> out(EDI4_MOST_REPORT);
    const std::uint64_t length = accepted(edi4_report(bytes_of(file), file.size(), out.data(), out.size()));
    return std::string(out.begin(), out.begin() + static_cast<std::ptrdiff_t>(length));
}

} // namespace

int main(int count, char **words)
{
    if (count != 2) {
        std::cerr << "usage: edi4_host FILE\n";
        return 2;
    }
    std::ifstream in(words[1], std::ios::binary);
    const std::string file((std::istreambuf_iterator<char>(in)), std::istreambuf_iterator<char>());
    if (!in) {
        std::cerr << words[1] << " cannot be read\n";
        return 2;
    }
    std::cout << report(file);
    try {
        const std::uint64_t sum = total(file, "DKK");
        std::cout << "total DKK " << sum / 100 << "." << std::setw(2) << std::setfill('0') << sum % 100 << "\n";
    } catch (const Refusal &refusal) {
        std::cout << "refused: " << refusal.what() << "\n";
        return 1;
    }
    return 0;
}
