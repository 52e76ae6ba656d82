// Anyone who is signed in makes lists and sees their own.
permit(principal,action in[Action::"makeList",Action::"showLists"],resource==App::"todo");

permit(principal, action, resource is List) when { resource.owner == principal };

// Helpers tick tasks off, readers only look.
permit(principal, action in [Action::"tick", Action::"show"], resource is List)
when { principal in resource.helpers };
permit(principal, action == Action::"show", resource is List)
when { principal in resource.readers };
