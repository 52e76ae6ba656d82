/////////////////////////////
// Comments in every place of a scope.
/////////////////////////////
@id("scope") // of an annotation
// before the effect
permit ( // after the bracket
  // before principal
  principal == User::"anna", // of principal
  // before action
  action == Action::"read", // of action
  // before resource
  resource is Note, // of resource
  // before the closing bracket
) // of the scope
// before the end
; // of the policy
