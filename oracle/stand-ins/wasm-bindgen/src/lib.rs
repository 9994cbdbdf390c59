//! Stand-in for what simulator/web.rs and simulator/coupling.rs name.

pub mod prelude {
    pub use wasm_bindgen_macro::wasm_bindgen;

    pub struct JsValue;

    impl JsValue {
        pub fn from<T>(_: T) -> Self {
            JsValue
        }
    }
}
