// A yard read into vectors, in C++: counts FILE says how much it holds, its area, and where its first node is. FILE
// holds the system section of a cell (graphics empty).
#include <cstdio>
#include <cstdlib>
#include <fstream>
#include <iterator>
#include <string>
#include <vector>

#include "bofrashem.h"

namespace {

// A cell with the memory that is lent for it.
struct Yard {
    ynd_cell ynd;
    std::vector<ynd_node_entry> nodes;
    std::vector<ynd_link_entry> links;
    std::vector<ynd_junction_entry> junctions;
    std::vector<uint8_t> heights;
    std::vector<ynd_ref_entry> refs;

    explicit Yard(const ynd_counts &held)
        : ynd(), nodes(held.nodes), links(held.links), junctions(held.junctions), heights(held.heights),
          refs(held.refs) {}

    uint32_t read(const std::vector<uint8_t> &section, size_t &place)
    {
        return ynd_read(&ynd, section.data(), section.size(), nullptr, 0, nodes.data(), nodes.size(), links.data(),
            links.size(), junctions.data(), junctions.size(), heights.data(), heights.size(), refs.data(), refs.size(),
            &place);
    }
};

std::string text_of(uint32_t number)
{
    char text[YND_TEXT_MOST];
    ynd_refusal_text(number, text, sizeof text);
    return text;
}

int refused(const char *name, uint32_t number, size_t place)
{
    std::printf("%s: refused %u %zu, %s\n", name, static_cast<unsigned>(number), place, text_of(number).c_str());
    return EXIT_FAILURE;
}

// How many bytes a cell's lists take: at most twice the file's, unless ranges of the file overlap.
size_t bytes_of(const ynd_counts &held)
{
    return held.nodes * sizeof(ynd_node_entry) + held.links * sizeof(ynd_link_entry)
        + held.junctions * sizeof(ynd_junction_entry) + held.heights + held.refs * sizeof(ynd_ref_entry);
}

}

int main(int argc, char **argv)
{
    if (argc != 2) {
        std::fputs("usage: counts FILE\n", stderr);
        return EXIT_FAILURE;
    }
    std::ifstream file(argv[1], std::ios::binary);
    const std::vector<uint8_t> section((std::istreambuf_iterator<char>(file)), std::istreambuf_iterator<char>());
    ynd_counts held;
    size_t place;
    uint32_t number = ynd_count(section.data(), section.size(), nullptr, 0, &held, &place);
    if (number)
        return refused(argv[1], number, place);
    if (bytes_of(held) > 2 * section.size()) {
        std::printf("%s: ranges overlap, and ask for %zu bytes\n", argv[1], bytes_of(held));
        return EXIT_FAILURE;
    }
    Yard yard(held);
    number = yard.read(section, place);
    if (number)
        return refused(argv[1], number, place);
    std::printf("%s: nodes %zu links %zu junctions %zu refs %zu\n", argv[1], held.nodes, held.links, held.junctions,
        held.refs);
    if (!yard.nodes.empty()) {
        const ynd_node_entry &first = yard.nodes.front();
        std::printf("area %u, first node at %g %g %g\n", static_cast<unsigned>(first.area_id),
            static_cast<double>(first.x), static_cast<double>(first.y), static_cast<double>(first.z));
    }
    return EXIT_SUCCESS;
}
