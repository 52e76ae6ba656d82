@template("collaborator")
permit(
  principal in ?principal, // a person or a team
  action in [Action::"pull", Action::"push"],
  resource == ?resource
) unless { resource.archived };

@template("admin") permit(principal==?principal,action,resource in ?resource);
