// Whoever is named may view the album that is named.
@template("share") permit(principal == ?principal, action == Action::"view", resource in ?resource);

@template("group-share")
permit(principal in ?principal, action in [Action::"view", Action::"download"], resource is Photo in ?resource)
when { principal.age >= 018 && resource.tags.contains("released") };
