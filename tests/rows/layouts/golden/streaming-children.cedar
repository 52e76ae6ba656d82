// A child's profile ends at eight, and sees what is made for its age.
@id("bedtime")
forbid(principal is Profile, action == Action::"watch", resource)
when { principal.isChild }
unless { context.hour >= 6 && context.hour < 20 };

@id("age")
forbid(principal is Profile, action == Action::"watch", resource is Film)
when { if principal has age then resource.age > principal.age else resource.age > 0 };
