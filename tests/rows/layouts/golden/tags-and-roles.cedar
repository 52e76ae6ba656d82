// What a role opens is narrowed by the marks that a principal has for this role:
// an auditor looks at what lies in their regions.
@id("auditor-by-region")
permit(principal in Role::"auditor", action in Group::"audit", resource)
when {
  principal.limits has auditor && principal.limits.auditor has regions &&
  (principal.limits.auditor.regions.isEmpty() || principal.limits.auditor.regions.containsAll(resource.regions))
};
