// A year with one plant and one interval, from C++:
// c++ -std=c++11 -Iinclude examples/settle.cpp target/staticlib/libnpa.a
#include "npa.h"

#include <initializer_list>
#include <iostream>
#include <stdexcept>
#include <string>
#include <vector>

namespace {

using Bytes = std::vector<uint8_t>;

// Words of 32 bits as bytes, lowest first.
Bytes words(std::initializer_list<uint32_t> values)
{
    Bytes bytes(4 * values.size());
    size_t word = 0;
    for (uint32_t value : values) {
        npa_put32(bytes.data(), word++, value);
    }
    return bytes;
}

// The data of a vector, or, of an empty one, the address of some byte: a call takes no null pointer.
const uint8_t *lent(const Bytes &bytes)
{
    static const uint8_t none = 0;
    return bytes.empty() ? &none : bytes.data();
}

void hold(uint32_t answer)
{
    if (answer != NPA_OK) {
        throw std::runtime_error("refused on ground " + std::to_string(answer) + ": " + npa_answer_text(answer));
    }
}

Bytes opened(const Bytes &block, size_t ids)
{
    Bytes ledger(NPA_LEDGER_BYTES(ids));
    hold(npa_open(lent(block), block.size(), ledger.data(), ledger.size()));
    return ledger;
}

Bytes settled(Bytes &ledger, const Bytes &file)
{
    Bytes result(NPA_RESULT_MOST);
    hold(npa_settle(ledger.data(), ledger.size(), lent(file), file.size(), result.data(), result.size()));
    result.resize(NPA_RESULT_BYTES(npa_get64(result.data(), NPA_RESULT_ROWS)));
    return result;
}

} // namespace

int main()
{
    // Net CONE 30000, 365 days, plant 11.
    const Bytes block = words({NPA_FORMAT_1, 30000, 365, 1, NPA_BLOCK_HEADER_BYTES, 11});
    // Interval 1000: plant 11, a demand resource, committed to 5000 kW, metered 4000 kW.
    const Bytes file = words({NPA_FORMAT_1, 1000, 30000, 365, 0, 0, 1, NPA_FILE_HEADER_BYTES, 0, NPA_FILE_HEADER_BYTES,
                              11, NPA_KIND_DEMAND, 5000, 0, 4000, 0, 0, 0, 0, 0, 0, 0, 0, 0});
    try {
        Bytes ledger = opened(block, 1);
        const Bytes result = settled(ledger, file);
        std::cout << "charge of " << npa_get64(result.data() + NPA_RESULT_ROW_AT(0), NPA_RESULT_ROW_CHARGE)
                  << " cents\n";
    } catch (const std::runtime_error &error) {
        std::cerr << error.what() << '\n';
        return 1;
    }
    return 0;
}
