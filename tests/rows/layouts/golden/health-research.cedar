// Research sees numbers of many patients, and names of none.
permit(principal in Role::"researcher", action == Action::"query", resource is Cohort)
when { resource.size >= 50 && !(context.columns.containsAny(["name", "birthday", "address"])) };
