// The header in C++, with the sizes that it asserts: plan K3 (no resources, done at once) opened and asked.
#include <jidlekuvo.h>
#include <jidlekuvo.h>

#include <cstdint>
#include <memory>
#include <type_traits>

static_assert(std::is_trivially_copyable<jidlekuvo_run>::value, "a run is bytes");

int main()
{
    const std::uint8_t plan[13] = {0x10, 0x01, 0x00, 0x01};
    std::unique_ptr<jidlekuvo_run> run(new jidlekuvo_run);
    const bool is_open = jidlekuvo_begin(run.get(), plan, sizeof plan, 0, 1, nullptr, 0).kind == JIDLEKUVO_OPENED;
    const bool is_done = jidlekuvo_ask(run.get(), 0).kind == JIDLEKUVO_DONE;
    return is_open && is_done && jidlekuvo_abi() == JIDLEKUVO_ABI && jidlekuvo_judge(plan, sizeof plan) == 0 ? 0 : 1;
}
