// One policy for each property and each person who runs it.
@template("property-admin")
permit(principal == ?principal, action, resource in ?resource)
when { principal.contract.until >= context.today };
