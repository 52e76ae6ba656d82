// Whoever wrote an issue may edit and close it.
permit(principal, action in [Action::"editIssue", Action::"closeIssue"], resource is Issue)
when { resource.author == principal };

// So may those who triage, but for issues that are marked.
permit(principal, action == Action::"closeIssue", resource is Issue)
when { principal in resource.repository.triagers && !resource.labels.containsAny(["security", "legal"]) };
