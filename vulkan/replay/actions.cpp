#include "actions.hpp"

#include "action_draw.hpp"
#include "action_plan.hpp"
#include "action_transfer.hpp"

namespace replay {

size_t record(Context &context, Scratch &scratch, VkCommandBuffer commands, const Action &action) {
    const ActionPlan plan = plan_of(context, action);
    for (const Shaded &draw : plan.draws)
        record_draw(context, commands, draw);
    for (const Shaded &dispatch : plan.dispatches)
        record_dispatch(context, commands, dispatch);
    for (const Use &use : plan.transfers)
        record_transfer(context, scratch, commands, use);
    return plan.commands();
}

} // namespace replay
