// Runs the column that Verilator compiled for +clocks=N clocks, with the rows of inputs.txt over and over.
#include "Vtimed.h"
#include "verilated.h"
#include <cstdint>
#include <cstdlib>
#include <cstring>
#include <fstream>
#include <string>
#include <vector>

int main(int argc, char **argv) {
    const char *word = "+clocks=";
    if (argc != 2 || std::strncmp(argv[1], word, std::strlen(word)) != 0) return 2;
    const long clocks = std::atol(argv[1] + std::strlen(word));
    std::vector<uint64_t> rows;
    std::ifstream file("inputs.txt");
    for (std::string line; std::getline(file, line);) rows.push_back(std::strtoull(line.c_str(), nullptr, 2));
    Vtimed timed;
    timed.clk = 0;
    timed.inputs = 0;
    timed.eval();
    for (long i = 0; i < clocks; i++) {
        timed.inputs = rows[i % rows.size()];
        timed.clk = 0;
        timed.eval();
        timed.clk = 1;
        timed.eval();
    }
    timed.final();
}
