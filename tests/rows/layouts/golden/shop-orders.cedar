// Refunds: the shop within two weeks, its manager at any time.
@id("refund") permit(principal in Shop::Role::"staff", action == Shop::Action::"refund", resource is Shop::Order)
when { context.today - resource.boughtOn <= 14 && ["card", "cash"].contains(resource.paidBy) };
@id("refund-late") permit(principal in Shop::Role::"manager", action == Shop::Action::"refund", resource);
