//! How a mistake is made: a type whose rules are the papers', except for one.

/// Makes mistakes about the rules of one trait. The name is the one that
/// documents cite; what follows it replaces the papers' rule.
macro_rules! mistakes_about {
    ($rules:ident: $($(#[$why:meta])* $name:ident $rule:tt)*) => {$(
        $(#[$why])*
        #[allow(non_camel_case_types)]
        pub(super) struct $name;
        implement!($rules $name $rule);
    )*};
}

/// Gives the type its own rule if the trait is the one that it is about, and
/// otherwise the papers' rules.
macro_rules! implement {
    (RowRules $name:ident $rule:tt) => { impl crate::cases::RowRules for $name $rule };
    (ReasonRules $name:ident $rule:tt) => { impl crate::rules::ReasonRules for $name $rule };
    (SoundRules $name:ident $rule:tt) => { impl crate::sound::SoundRules for $name $rule };
    (Gate Gate $name:ident $rule:tt) => { impl crate::rules::Gate for $name $rule };
    (NetworkRules NetworkRules $name:ident $rule:tt) => { impl crate::rules::NetworkRules for $name $rule };
    (ClientRules ClientRules $name:ident $rule:tt) => { impl crate::rules::ClientRules for $name $rule };
    (GrantRules GrantRules $name:ident $rule:tt) => { impl crate::rules::GrantRules for $name $rule };
    (LatestEnd LatestEnd $name:ident $rule:tt) => { impl crate::rules::LatestEnd for $name $rule };
    (NoteRules NoteRules $name:ident $rule:tt) => { impl crate::rules::NoteRules for $name $rule };
    (WriteRules WriteRules $name:ident $rule:tt) => { impl crate::rules::WriteRules for $name $rule };
    (ServerRules ServerRules $name:ident $rule:tt) => { impl crate::rules::ServerRules for $name $rule };
    (SavedRules SavedRules $name:ident $rule:tt) => { impl crate::rules::SavedRules for $name $rule };
    (Rules Rules $name:ident $rule:tt) => { impl crate::rules::Rules for $name $rule };
    ($each:ident $about:ident $name:ident $rule:tt) => { impl crate::rules::$each for $name {} };
    ($about:ident $name:ident $rule:tt) => {
        implement!(Gate $about $name $rule);
        implement!(NetworkRules $about $name $rule);
        implement!(ClientRules $about $name $rule);
        implement!(GrantRules $about $name $rule);
        implement!(LatestEnd $about $name $rule);
        implement!(NoteRules $about $name $rule);
        implement!(WriteRules $about $name $rule);
        implement!(ServerRules $about $name $rule);
        implement!(SavedRules $about $name $rule);
        implement!(Rules $about $name $rule);
    };
}
