// Counts the interfaces of WebIDL on standard input.
#include <algorithm>
#include <iostream>
#include <iterator>
#include <string>
#include <vector>

#include "weedle.h"

int main() {
    const std::string text{std::istreambuf_iterator<char>(std::cin), {}};
    std::vector<weedle_node> nodes(1);
    weedle_answer answer;
    auto status = weedle_syntax(text.data(), text.size(), nodes.data(), nodes.size(), &answer);
    if (status == WEEDLE_STATUS_NO_ROOM) {
        nodes.resize(answer.count);
        status = weedle_syntax(text.data(), text.size(), nodes.data(), nodes.size(), &answer);
    }
    if (status != WEEDLE_STATUS_READ) {
        std::cerr << "unread from byte " << answer.rest << " on\n";
        return 1;
    }
    std::cout << std::count_if(nodes.begin(), nodes.end(), [](const weedle_node &node) {
        return node.rule == WEEDLE_INTERFACE_DEFINITION;
    }) << " interfaces\n";
}
