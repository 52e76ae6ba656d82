// A folder's readers read what is in it, at any depth.
permit(principal, action == Action::"read", resource)
when { resource in principal.folders && !(resource has sealed && resource.sealed) };

// Moving needs both folders.
permit(principal, action == Action::"move", resource)
when { principal.writes.contains(resource.folder) && principal.writes.contains(context.target) };
