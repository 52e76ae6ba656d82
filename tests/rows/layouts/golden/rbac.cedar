// Roles of the document service.

// Everybody who is employed may read what is public.
@id("read-public")
permit(principal in Role::"employee", action == Action::"read", resource) when { resource.visibility == "public" };

// Editors may change what their team owns.
@id("edit-own-team")
permit(
    principal in Role::"editor",
    action in [Action::"read", Action::"edit", Action::"comment",],
    resource is Document
) when { resource.team == principal.team };

// Nobody deletes a document under legal hold.
@id("legal-hold")
forbid(principal, action == Action::"delete", resource) when { resource has hold && resource.hold == true };

// Administrators may do all.
permit(principal in Role::"administrator", action, resource);
