//! A register of bindings.

use super::definitions::{parse_key_event, parse_mouse_event};
use super::{InputClassifier, InputEvent, generate_default_bindings};
use crate::PagerState;
use crate::help::format_help_table_from_entries;
use crossterm::event::{Event, MouseEvent};
use std::borrow::Cow;
use std::collections::HashMap;
use std::collections::hash_map::RandomState;
use std::hash::{BuildHasher, Hash, Hasher};
use std::sync::Arc;

type Callback = Arc<dyn Fn(Event, &PagerState) -> InputEvent + Send + Sync>;

/// What a binding is bound to. Events of the mouse are the same wherever the mouse is, and resizes whatever the size is.
#[derive(Clone, Eq)]
enum Bound {
    Event(Event),
    AnyOther,
}

impl PartialEq for Bound {
    fn eq(&self, other: &Self) -> bool {
        match (self, other) {
            (Self::AnyOther, Self::AnyOther) => true,
            (Self::Event(Event::Resize(..)), Self::Event(Event::Resize(..))) => true,
            (Self::Event(Event::Mouse(own)), Self::Event(Event::Mouse(other))) => {
                (own.kind, own.modifiers) == (other.kind, other.modifiers)
            }
            (Self::Event(own), Self::Event(other)) => own == other,
            _ => false,
        }
    }
}

impl Hash for Bound {
    fn hash<H: Hasher>(&self, state: &mut H) {
        match self {
            Self::AnyOther | Self::Event(Event::Resize(..)) => {}
            Self::Event(Event::Mouse(MouseEvent { kind, modifiers, .. })) => (kind, modifiers).hash(state),
            Self::Event(event) => event.hash(state),
        }
    }
}

/// What a binding does, what it is called in the help, and when it was bound.
struct Binding {
    callback: Callback,
    description: Cow<'static, str>,
    place: usize,
}

/// Bindings of keys and of the mouse to closures.
///
/// A closure is given the event and where the pager stands, and answers what the pager is to do. See the
/// [module](crate::input) for the descriptions of keys and of the mouse.
pub struct HashedEventRegister<S> {
    bindings: HashMap<Bound, Binding, S>,
    next_place: usize,
}

impl HashedEventRegister<RandomState> {
    /// A register without bindings, with the standard library's hasher.
    #[must_use]
    pub fn with_default_hasher() -> Self {
        Self::new(RandomState::new())
    }
}

impl Default for HashedEventRegister<RandomState> {
    /// A register with the default bindings.
    fn default() -> Self {
        let mut register = Self::with_default_hasher();
        generate_default_bindings(&mut register);
        register
    }
}

impl<S: BuildHasher> InputClassifier for HashedEventRegister<S> {
    fn classify_input(&self, event: Event, state: &PagerState) -> Option<InputEvent> {
        let bound = Bound::Event(event.clone());
        let binding = self.bindings.get(&bound).or_else(|| self.bindings.get(&Bound::AnyOther))?;
        Some((binding.callback)(event, state))
    }

    fn format_help(&self) -> Option<String> {
        Some(self.format_help()).filter(|help| !help.is_empty())
    }
}

impl<S: BuildHasher> HashedEventRegister<S> {
    /// A register without bindings.
    pub const fn new(s: S) -> Self {
        Self { bindings: HashMap::with_hasher(s), next_place: 0 }
    }

    /// The text that tells what the keys do that have a description, in the order in which they were bound.
    #[must_use]
    pub fn format_help(&self) -> String {
        let mut keys: Vec<_> = self
            .bindings
            .iter()
            .filter_map(|(bound, binding)| match bound {
                Bound::Event(Event::Key(key)) => Some((key, binding)),
                _ => None,
            })
            .collect();
        keys.sort_by_key(|(_, binding)| binding.place);
        format_help_table_from_entries(keys.into_iter().map(|(key, binding)| (key, binding.description.as_ref())))
    }

    /// Binds all events that nothing else is bound to.
    ///
    /// ```
    /// use minus::input::{HashedEventRegister, InputEvent};
    ///
    /// let mut register = HashedEventRegister::with_default_hasher();
    /// register.insert_wild_event_matcher(|event, _| {
    ///     eprintln!("nothing is bound to {event:?}");
    ///     InputEvent::Ignore
    /// });
    /// ```
    pub fn insert_wild_event_matcher(&mut self, cb: impl Fn(Event, &PagerState) -> InputEvent + Send + Sync + 'static) {
        self.bind(Bound::AnyOther, Arc::new(cb), Cow::Borrowed(""));
    }

    /// Binds a new size of the terminal.
    ///
    /// ```
    /// use minus::input::crossterm_event::Event;
    /// use minus::input::{HashedEventRegister, InputEvent};
    ///
    /// let mut register = HashedEventRegister::with_default_hasher();
    /// register.add_resize_event(|event, _| match event {
    ///     Event::Resize(cols, rows) => InputEvent::UpdateTermArea(cols.into(), rows.into()),
    ///     _ => InputEvent::Ignore,
    /// });
    /// ```
    pub fn add_resize_event(&mut self, cb: impl Fn(Event, &PagerState) -> InputEvent + Send + Sync + 'static) {
        self.bind(Bound::Event(Event::Resize(0, 0)), Arc::new(cb), Cow::Borrowed(""));
    }

    /// Binds a new size of the terminal to nothing.
    pub fn remove_resize_event(&mut self) {
        self.bindings.remove(&Bound::Event(Event::Resize(0, 0)));
    }

    /// Binds each of these keys, over what was bound to it.
    ///
    /// # Panics
    ///
    /// Where a text describes no key.
    ///
    /// ```
    /// use minus::input::{HashedEventRegister, InputEvent};
    ///
    /// let mut register = HashedEventRegister::default();
    /// register.add_key_events(&["e", "c-e"], |_, state| InputEvent::UpdateUpperMark(state.upper_mark + 1));
    /// ```
    pub fn add_key_events(
        &mut self,
        desc: &[&str],
        cb: impl Fn(Event, &PagerState) -> InputEvent + Send + Sync + 'static,
    ) {
        self.add_described_key_events(desc, "", cb);
    }

    /// Binds each of these keys, over what was bound to it, with a description for the help.
    ///
    /// # Panics
    ///
    /// Where a text describes no key.
    pub fn add_described_key_events(
        &mut self,
        keys: &[&str],
        desc: impl Into<Cow<'static, str>>,
        cb: impl Fn(Event, &PagerState) -> InputEvent + Send + Sync + 'static,
    ) {
        self.bind_each(keys.iter().map(|key| bound_key(key)), desc.into(), Arc::new(cb));
    }

    /// Binds each of these keys. `remap` allows keys that are bound already.
    ///
    /// # Panics
    ///
    /// Where a text describes no key, and where a key is bound already and `remap` is `false`.
    ///
    /// ```should_panic
    /// use minus::input::{HashedEventRegister, InputEvent};
    ///
    /// let mut register = HashedEventRegister::default();
    /// // `space` goes a page down by default.
    /// register.add_key_events_checked(&["space"], |_, _| InputEvent::Exit, false);
    /// ```
    pub fn add_key_events_checked(
        &mut self,
        desc: &[&str],
        cb: impl Fn(Event, &PagerState) -> InputEvent + Send + Sync + 'static,
        remap: bool,
    ) {
        self.add_described_key_events_checked(desc, "", cb, remap);
    }

    /// Binds each of these keys, with a description for the help. `remap` allows keys that are bound already.
    ///
    /// # Panics
    ///
    /// Where a text describes no key, and where a key is bound already and `remap` is `false`.
    pub fn add_described_key_events_checked(
        &mut self,
        keys: &[&str],
        desc: impl Into<Cow<'static, str>>,
        cb: impl Fn(Event, &PagerState) -> InputEvent + Send + Sync + 'static,
        remap: bool,
    ) {
        self.check(keys, bound_key, remap);
        self.add_described_key_events(keys, desc, cb);
    }

    /// Binds each of these keys to nothing.
    ///
    /// # Panics
    ///
    /// Where a text describes no key.
    ///
    /// ```
    /// use minus::input::HashedEventRegister;
    ///
    /// let mut register = HashedEventRegister::default();
    /// register.remove_key_events(&["c-c"]);
    /// assert!(!register.format_help().contains("Ctrl-c"));
    /// ```
    pub fn remove_key_events(&mut self, desc: &[&str]) {
        for key in desc {
            self.bindings.remove(&bound_key(key));
        }
    }

    /// Binds each of these actions of the mouse, over what was bound to it.
    ///
    /// # Panics
    ///
    /// Where a text describes no action of the mouse.
    ///
    /// ```
    /// use minus::input::{HashedEventRegister, InputEvent};
    ///
    /// let mut register = HashedEventRegister::default();
    /// register.add_mouse_events(&["mid:down"], |_, _| InputEvent::UpdateUpperMark(0));
    /// ```
    pub fn add_mouse_events(
        &mut self,
        desc: &[&str],
        cb: impl Fn(Event, &PagerState) -> InputEvent + Send + Sync + 'static,
    ) {
        self.bind_each(desc.iter().map(|action| bound_mouse(action)), Cow::Borrowed(""), Arc::new(cb));
    }

    /// Binds each of these actions of the mouse. `remap` allows what is bound already.
    ///
    /// # Panics
    ///
    /// Where a text describes no action of the mouse, and where one is bound already and `remap` is `false`.
    ///
    /// ```should_panic
    /// use minus::input::{HashedEventRegister, InputEvent};
    ///
    /// let mut register = HashedEventRegister::default();
    /// register.add_mouse_events_checked(&["scroll:up"], |_, _| InputEvent::Exit, false);
    /// ```
    pub fn add_mouse_events_checked(
        &mut self,
        desc: &[&str],
        cb: impl Fn(Event, &PagerState) -> InputEvent + Send + Sync + 'static,
        remap: bool,
    ) {
        self.check(desc, bound_mouse, remap);
        self.add_mouse_events(desc, cb);
    }

    /// Binds each of these actions of the mouse to nothing.
    ///
    /// # Panics
    ///
    /// Where a text describes no action of the mouse.
    ///
    /// ```
    /// use minus::input::HashedEventRegister;
    ///
    /// HashedEventRegister::default().remove_mouse_events(&["scroll:up", "scroll:down"]);
    /// ```
    pub fn remove_mouse_events(&mut self, mouse: &[&str]) {
        for action in mouse {
            self.bindings.remove(&bound_mouse(action));
        }
    }

    #[track_caller]
    fn check(&self, texts: &[&str], bound: fn(&str) -> Bound, remap: bool) {
        for text in texts {
            assert!(remap || !self.bindings.contains_key(&bound(text)), "'{text}' is bound already");
        }
    }

    fn bind_each(&mut self, bounds: impl Iterator<Item = Bound>, description: Cow<'static, str>, callback: Callback) {
        bounds.for_each(|bound| self.bind(bound, callback.clone(), description.clone()));
    }

    fn bind(&mut self, bound: Bound, callback: Callback, description: Cow<'static, str>) {
        let place = self.bindings.get(&bound).map_or(self.next_place, |binding| binding.place);
        self.next_place += 1;
        self.bindings.insert(bound, Binding { callback, description, place });
    }
}

#[track_caller]
fn bound_key(text: &str) -> Bound {
    Bound::Event(Event::Key(parse_key_event(text)))
}

#[track_caller]
fn bound_mouse(text: &str) -> Bound {
    Bound::Event(Event::Mouse(parse_mouse_event(text)))
}
